//! The rows are those of the Unicode Character Database, and the texts those of its `NormalizationTest.txt`.

use crate::Fail;
use crate::passes::texts::{assert_characters, assert_clusters, buffer_of};
use vukhaso::internals::buffer::{CombiningClasses, Compositions, Decompositions, hb_buffer_t};
use vukhaso::internals::passes::{compose_marks, decompose_all, order_marks};

static DECOMPOSITIONS: [(char, char, Option<char>); 7] = [
    ('\u{c5}', 'A', Some('\u{30a}')),
    ('\u{1e0a}', 'D', Some('\u{307}')),
    ('\u{1e63}', 's', Some('\u{323}')),
    ('\u{1e69}', '\u{1e63}', Some('\u{307}')),
    ('\u{1f00}', '\u{3b1}', Some('\u{313}')),
    ('\u{1f02}', '\u{1f00}', Some('\u{300}')),
    ('\u{212b}', '\u{c5}', None),
];

static COMPOSITIONS: [((char, char), char); 8] = [
    (('A', '\u{30a}'), '\u{c5}'),
    (('D', '\u{307}'), '\u{1e0a}'),
    (('D', '\u{323}'), '\u{1e0c}'),
    (('a', '\u{300}'), '\u{e0}'),
    (('s', '\u{323}'), '\u{1e63}'),
    (('\u{3b1}', '\u{313}'), '\u{1f00}'),
    (('\u{1e63}', '\u{307}'), '\u{1e69}'),
    (('\u{1f00}', '\u{300}'), '\u{1f02}'),
];

static CLASSES: [(char, u8); 8] = [
    ('\u{300}', 230),
    ('\u{301}', 230),
    ('\u{307}', 230),
    ('\u{30a}', 230),
    ('\u{313}', 230),
    ('\u{315}', 232),
    ('\u{323}', 220),
    ('\u{5ae}', 228),
];

/// Texts, what stands in their place once each character is taken apart and the marks are in order, and what that
/// composes to.
static TEXTS: [(&str, &str, &str); 7] = [
    ("\u{1e69}", "s\u{323}\u{307}", "\u{1e69}"),
    ("\u{1e0a}\u{323}", "D\u{323}\u{307}", "\u{1e0c}\u{307}"),
    ("\u{1f02}", "\u{3b1}\u{313}\u{300}", "\u{1f02}"),
    ("\u{212b}", "A\u{30a}", "\u{c5}"),
    ("\u{d7a3}", "\u{1112}\u{1175}\u{11c2}", "\u{d7a3}"),
    (
        "a\u{315}\u{300}\u{5ae}\u{300}b",
        "a\u{5ae}\u{300}\u{300}\u{315}b",
        "\u{e0}\u{5ae}\u{300}\u{315}b",
    ),
    ("D\u{301}\u{307}", "D\u{301}\u{307}", "D\u{301}\u{307}"),
];

/// Asserts which characters stand in a buffer.
fn assert_text(buffer: &hb_buffer_t, want: &str) {
    assert_characters(buffer.info(), want, want);
}

/// Takes a text apart.
fn decompose(buffer: &mut hb_buffer_t, decompositions: &Decompositions) {
    assert!(!buffer.have_output());
    assert_eq!(decompose_all(buffer, decompositions), Ok(true));
}

/// Puts its marks in order.
fn order(buffer: &mut hb_buffer_t, classes: &CombiningClasses) {
    assert!(!buffer.have_output());
    order_marks(buffer, classes);
}

/// Composes its pairs.
fn compose(buffer: &mut hb_buffer_t, compositions: &Compositions, classes: &CombiningClasses) {
    assert!(!buffer.have_output());
    assert_eq!(compose_marks(buffer, compositions, classes), Ok(true));
}

#[test]
fn texts_are_normalized() -> Result<(), Fail> {
    let decompositions = Decompositions::new(&DECOMPOSITIONS).ok_or("rows that rise")?;
    let compositions = Compositions::new(&COMPOSITIONS).ok_or("rows that rise")?;
    let classes = CombiningClasses::new(&CLASSES).ok_or("rows that rise")?;
    for (text, apart, composed) in &TEXTS {
        let mut buffer = buffer_of(text);
        decompose(&mut buffer, &decompositions);
        order(&mut buffer, &classes);
        assert_text(&buffer, apart);
        compose(&mut buffer, &compositions, &classes);
        assert_text(&buffer, composed);
    }
    Ok(())
}

/// A table that goes in circles ends after eight steps.
#[test]
fn circles_end() -> Result<(), Fail> {
    let rows = [('a', 'b', Some('x')), ('b', 'a', Some('y'))];
    let decompositions = Decompositions::new(&rows).ok_or("rows that rise")?;
    let mut buffer = buffer_of("a");
    decompose(&mut buffer, &decompositions);
    assert_text(&buffer, "ayxyxyxyx");
    Ok(())
}

/// A mark takes the cluster of the one that it passes, and no starter is passed.
#[test]
fn clusters_merge() -> Result<(), Fail> {
    let classes = CombiningClasses::new(&CLASSES).ok_or("rows that rise")?;
    let mut buffer = buffer_of("s\u{307}\u{323}s\u{323}");
    order(&mut buffer, &classes);
    assert_text(&buffer, "s\u{323}\u{307}s\u{323}");
    assert_clusters(buffer.info(), &[0, 1, 1, 5, 6]);
    Ok(())
}

/// A composed character has the cluster of both of its parts, and a mark between them goes with them.
#[test]
fn clusters_of_pairs_merge() -> Result<(), Fail> {
    let compositions = Compositions::new(&COMPOSITIONS).ok_or("rows that rise")?;
    let classes = CombiningClasses::new(&CLASSES).ok_or("rows that rise")?;
    let mut buffer = buffer_of("ba\u{5ae}\u{300}b");
    compose(&mut buffer, &compositions, &classes);
    assert_text(&buffer, "b\u{e0}\u{5ae}b");
    assert_clusters(buffer.info(), &[0, 1, 1, 6]);
    Ok(())
}
