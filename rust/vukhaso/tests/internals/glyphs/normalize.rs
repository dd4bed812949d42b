use crate::Fail;
use vukhaso::internals::glyph::{Compositions, Decompositions, compose, decompose};

#[test]
fn hangul_goes_before_the_table() -> Result<(), Fail> {
    let rows = [
        (('a', '\u{301}'), '\u{e1}'),
        (('\u{1100}', '\u{1161}'), 'x'),
    ];
    let compositions = Compositions::new(&rows).ok_or("two rows")?;
    assert!(compose(&compositions, 'a', '\u{301}') == Some('\u{e1}'));
    let syllable = compose(&compositions, '\u{1100}', '\u{1161}');
    assert!(syllable == Some('\u{ac00}'));
    let rows = [('\u{212b}', '\u{c5}', None), ('\u{ac00}', 'x', Some('y'))];
    let decompositions = Decompositions::new(&rows).ok_or("two rows")?;
    let angstrom = decompose(&decompositions, '\u{212b}');
    assert!(angstrom == Some(('\u{c5}', '\0')));
    let parts = decompose(&decompositions, '\u{ac00}');
    assert!(parts == Some(('\u{1100}', '\u{1161}')));
    Ok(())
}
