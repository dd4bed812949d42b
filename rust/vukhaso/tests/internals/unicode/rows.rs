//! Rows as the Unicode Character Database writes them.

use crate::Fail;
use vukhaso::internals::glyph::{
    CharExt, CombiningClasses, Compositions, Decompositions, compose, decompose,
};
use vukhaso::internals::unicode_tables::{
    UnicodeRows, combining_classes, compositions, decompositions,
};

/// Characters and their mappings in field 5 of `UnicodeData.txt`: singletons, pairs, pairs of more than two characters
/// in all, pairs that are excluded from composition, and a Hangul syllable by the rule of section 3.12.
static MAPPINGS: [(char, char, char); 14] = [
    ('\u{e9}', 'e', '\u{301}'),
    ('\u{1e69}', '\u{1e63}', '\u{307}'),
    ('\u{1fb7}', '\u{1fb6}', '\u{345}'),
    ('\u{212b}', '\u{c5}', '\0'),
    ('\u{1fd3}', '\u{390}', '\0'),
    ('\u{2126}', '\u{3a9}', '\0'),
    ('\u{344}', '\u{308}', '\u{301}'),
    ('\u{958}', '\u{915}', '\u{93c}'),
    ('\u{fb2c}', '\u{fb49}', '\u{5c1}'),
    ('\u{1d160}', '\u{1d15f}', '\u{1d16e}'),
    ('\u{1d1c0}', '\u{1d1bc}', '\u{1d16f}'),
    ('\u{2adc}', '\u{2add}', '\u{338}'),
    ('\u{2f800}', '\u{4e3d}', '\0'),
    ('\u{ac01}', '\u{ac00}', '\u{11a8}'),
];

/// Pairs, and what they compose to: nothing where the composite is excluded.
static PAIRS: [(char, char, Option<char>); 6] = [
    ('e', '\u{301}', Some('\u{e9}')),
    ('\u{1e63}', '\u{307}', Some('\u{1e69}')),
    ('\u{915}', '\u{93c}', None),
    ('\u{5e9}', '\u{5c1}', None),
    ('\u{308}', '\u{301}', None),
    ('\u{ac00}', '\u{11a8}', Some('\u{ac01}')),
];

#[test]
fn mappings() -> Result<(), Fail> {
    let rows = decompositions()?;
    let table = Decompositions::new(&rows).ok_or("rows that rise")?;
    for &(c, first, second) in &MAPPINGS {
        assert!(decompose(&table, c) == Some((first, second)), "{c:?}");
    }
    assert!(decompose(&table, 'e').is_none());
    Ok(())
}

#[test]
fn pairs() -> Result<(), Fail> {
    let rows = compositions()?;
    let table = Compositions::new(&rows).ok_or("rows that rise")?;
    for &(a, b, composite) in &PAIRS {
        assert!(compose(&table, a, b) == composite, "{a:?}, {b:?}");
    }
    Ok(())
}

#[test]
fn classes() -> Result<(), Fail> {
    let rows = combining_classes()?;
    assert!(CombiningClasses::new(&rows).is_some());
    let virama = rows.iter().find(|row| row.0 == '\u{94d}').copied();
    assert!(virama == Some(('\u{94d}', 9)));
    let acute = rows.iter().find(|row| row.0 == '\u{301}').copied();
    assert!(acute == Some(('\u{301}', 230)));
    assert!(!rows.iter().any(|row| row.0 == 'a'));
    Ok(())
}

#[test]
fn tables_of_all_rows() -> Result<(), Fail> {
    let rows = UnicodeRows::new()?;
    for &(c, first, second) in &MAPPINGS {
        assert!(
            decompose(&rows.decompositions(), c) == Some((first, second)),
            "{c:?}"
        );
    }
    for &(a, b, composite) in &PAIRS {
        assert!(
            compose(&rows.compositions(), a, b) == composite,
            "{a:?}, {b:?}"
        );
    }
    for (c, class) in [('a', 0), ('\u{94d}', 9), ('\u{301}', 230)] {
        assert!(
            c.modified_combining_class(&rows.classes()) == class,
            "{c:?}"
        );
    }
    Ok(())
}
