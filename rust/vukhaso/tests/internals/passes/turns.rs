//! Composition, one character after the other (Unicode Standard Annex 15): what stands on the out side after each, and where
//! the last starter is.

use crate::Fail;
use crate::passes::texts::{assert_characters, buffer_of};
use vukhaso::internals::buffer::{CombiningClasses, Compositions, hb_buffer_t};
use vukhaso::internals::passes::normalization::{CharacterPairs, MarkClasses, next_turn};

static COMPOSITIONS: [((char, char), char); 2] =
    [(('a', '\u{300}'), '\u{e0}'), (('s', '\u{323}'), '\u{1e63}')];

static CLASSES: [(char, u8); 4] = [
    ('\u{300}', 230),
    ('\u{301}', 230),
    ('\u{323}', 220),
    ('\u{5ae}', 228),
];

/// A text, and after each of its characters where the last starter is and what stands on the out side.
struct Row {
    name: &'static str,
    text: &'static str,
    turns: &'static [(Option<usize>, &'static str)],
}

static ROWS: [Row; 5] = [
    Row {
        name: "a mark behind another one of a lower class is composed",
        text: "ba\u{5ae}\u{300}b",
        turns: &[
            (Some(0), "b"),
            (Some(1), "ba"),
            (Some(1), "ba\u{5ae}"),
            (Some(1), "b\u{e0}\u{5ae}"),
            (Some(3), "b\u{e0}\u{5ae}b"),
        ],
    },
    Row {
        name: "a mark of the same class blocks",
        text: "a\u{301}\u{300}",
        turns: &[
            (Some(0), "a"),
            (Some(0), "a\u{301}"),
            (Some(0), "a\u{301}\u{300}"),
        ],
    },
    Row {
        name: "a mark of a lower class behind one of a higher class is blocked",
        text: "s\u{301}\u{323}",
        turns: &[
            (Some(0), "s"),
            (Some(0), "s\u{301}"),
            (Some(0), "s\u{301}\u{323}"),
        ],
    },
    Row {
        name: "a mark before the first starter stays",
        text: "\u{300}a\u{300}",
        turns: &[
            (None, "\u{300}"),
            (Some(1), "\u{300}a"),
            (Some(1), "\u{300}\u{e0}"),
        ],
    },
    Row {
        name: "a consonant, a vowel and a trailing consonant are one syllable",
        text: "\u{1111}\u{1171}\u{11b6}",
        turns: &[
            (Some(0), "\u{1111}"),
            (Some(0), "\u{d4cc}"),
            (Some(0), "\u{d4db}"),
        ],
    },
];

/// Whether the place of the last starter, if there is one, is on the out side.
fn is_place(starter: Option<usize>, buffer: &hb_buffer_t) -> bool {
    match starter {
        Some(at) => at < buffer.out_len(),
        None => true,
    }
}

/// Reads one character.
fn turn<P: CharacterPairs, C: MarkClasses>(
    buffer: &mut hb_buffer_t,
    compositions: &P,
    classes: &C,
    starter: Option<usize>,
) -> Option<usize> {
    assert!(buffer.have_output());
    assert!(buffer.successful());
    assert!(!buffer.have_separate_output());
    assert!(buffer.out_len() <= buffer.idx());
    assert!(buffer.idx() <= buffer.max_len());
    assert!(buffer.lookahead_len() <= buffer.max_len() - buffer.idx());
    assert!(0 < buffer.lookahead_len());
    assert!(is_place(starter, buffer));
    next_turn(buffer, compositions, classes, starter)
}

/// A buffer over a text, with an output open.
fn opened(text: &str) -> hb_buffer_t {
    let mut buffer = buffer_of(text);
    buffer.clear_output();
    buffer
}

/// Asserts what each character of a row gives.
fn assert_turns(row: &Row, compositions: &Compositions<'_>, classes: &CombiningClasses<'_>) {
    let mut buffer = opened(row.text);
    let mut starter = None;
    for (place, want) in row.turns {
        starter = turn(&mut buffer, compositions, classes, starter);
        assert_eq!(starter, *place, "{}", row.name);
        assert_characters(buffer.out_info(), want, row.name);
    }
    assert_eq!(buffer.lookahead_len(), 0, "{}", row.name);
}

#[test]
fn characters_are_composed_one_after_the_other() -> Result<(), Fail> {
    let compositions = Compositions::new(&COMPOSITIONS).ok_or("rows that rise")?;
    let classes = CombiningClasses::new(&CLASSES).ok_or("rows that rise")?;
    for row in &ROWS {
        assert_turns(row, &compositions, &classes);
    }
    Ok(())
}
