//! Hebrew letters with marks.

use vukhaso::internals::script_shapers::ScriptShaper;

/// A shaper, a letter and a mark, whether the font places marks, and what the two compose to.
type Row = (ScriptShaper, char, char, bool, Option<char>);

static PAIRS: [Row; 5] = [
    (
        ScriptShaper::Hebrew,
        '\u{5e9}',
        '\u{5c1}',
        false,
        Some('\u{fb2a}'),
    ),
    (
        ScriptShaper::Hebrew,
        '\u{5d9}',
        '\u{5b4}',
        false,
        Some('\u{fb1d}'),
    ),
    (ScriptShaper::Hebrew, '\u{5d9}', '\u{5b4}', true, None),
    (ScriptShaper::Default, '\u{5d9}', '\u{5b4}', false, None),
    (ScriptShaper::Hebrew, '\u{5d7}', '\u{5bc}', false, None),
];

/// A letter and a mark become a presentation form where the font does not place marks, and only in
/// Hebrew.
#[test]
fn presentation_forms() {
    for (shaper, letter, mark, has_gpos_mark, wanted) in &PAIRS {
        let composed = shaper.compose(*letter, *mark, *has_gpos_mark);
        assert_eq!(composed, *wanted, "{letter}");
    }
}
