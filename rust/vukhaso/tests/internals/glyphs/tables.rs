//! Tests of what is a table: keys that rise.
use vukhaso::internals::glyph::{CombiningClasses, Compositions, Decompositions, Mirrors};

fn are_classes(rows: &[(char, u8)]) -> bool {
    CombiningClasses::new(rows).is_some()
}

fn are_compositions(rows: &[((char, char), char)]) -> bool {
    Compositions::new(rows).is_some()
}

fn are_decompositions(rows: &[(char, char, Option<char>)]) -> bool {
    Decompositions::new(rows).is_some()
}

const GRAVE: char = '\u{300}';

const ACUTE: char = '\u{301}';

/// Rows, and whether they are a table.
static CLASSES: [(&[(char, u8)], bool); 5] = [
    (&[], true),
    (&[(GRAVE, 230), (ACUTE, 230)], true),
    (&[(ACUTE, 230), (GRAVE, 230)], false),
    (&[('b', 1), ('b', 2)], false),
    (&[('b', 1), ('a', 2)], false),
];

#[test]
fn classes_have_rising_rows() {
    for (rows, is_table) in &CLASSES {
        assert!(are_classes(rows) == *is_table, "{rows:?}");
    }
}

static COMPOSITIONS: [(&[((char, char), char)], bool); 7] = [
    (&[], true),
    (&[(('a', GRAVE), 'à'), (('a', ACUTE), 'á')], true),
    (&[(('a', ACUTE), 'á'), (('a', GRAVE), 'à')], false),
    (&[(('b', 'c'), 'x'), (('b', 'c'), 'y')], false),
    (&[(('b', 'c'), 'x'), (('a', 'c'), 'y')], false),
    (&[(('c', 'b'), 'x'), (('c', 'b'), 'y')], false),
    (&[(('c', 'b'), 'x'), (('c', 'a'), 'y')], false),
];

#[test]
fn compositions_have_rising_rows() {
    for (rows, is_table) in &COMPOSITIONS {
        assert!(are_compositions(rows) == *is_table, "{rows:?}");
    }
}

static DECOMPOSITIONS: [(&[(char, char, Option<char>)], bool); 5] = [
    (&[], true),
    (
        &[('Å', 'A', Some('\u{30a}')), ('\u{212b}', 'Å', None)],
        true,
    ),
    (
        &[('\u{212b}', 'Å', None), ('Å', 'A', Some('\u{30a}'))],
        false,
    ),
    (&[('b', 'x', None), ('b', 'y', None)], false),
    (&[('b', 'x', None), ('a', 'y', None)], false),
];

#[test]
fn decompositions_have_rising_rows() {
    for (rows, is_table) in &DECOMPOSITIONS {
        assert!(are_decompositions(rows) == *is_table, "{rows:?}");
    }
}

fn are_mirrors(rows: &[(char, char)]) -> bool {
    Mirrors::new(rows).is_some()
}

static MIRRORS: [(&[(char, char)], bool); 5] = [
    (&[], true),
    (&[('(', ')'), (')', '(')], true),
    (&[('(', ')'), ('(', ')')], false),
    (&[('b', 'x'), ('b', 'y')], false),
    (&[('b', 'x'), ('a', 'y')], false),
];

#[test]
fn mirrors_have_rising_rows() {
    for (rows, is_table) in &MIRRORS {
        assert!(are_mirrors(rows) == *is_table, "{rows:?}");
    }
}
