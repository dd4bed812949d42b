use std::cmp::Ordering;
use vukhaso::internals::glyph::row_search::{
    holds, range_order, rises, row_at, row_of, value_of, value_of_pair,
};

const LETTERS: [(char, u32); 3] = [('b', 1), ('d', 2), ('f', 3)];

const PAIRS: [((char, char), char); 3] = [
    (('a', '\u{300}'), 'à'),
    (('a', '\u{301}'), 'á'),
    (('e', '\u{300}'), 'è'),
];

const RANGES: [(char, char); 2] = [('b', 'd'), ('m', 'm')];

#[test]
fn a_row_is_found_by_its_key() {
    assert!(value_of(&LETTERS, 'f') == Some(3));
    assert!(value_of(&LETTERS, 'e').is_none());
    let row = row_of(&LETTERS, 'b', |row| row.0).map(|row| row.1);
    assert!(row == Some(1));
    let at = row_at(&LETTERS, |row| row.1.cmp(&2)).map(|row| row.0);
    assert!(at == Some('d'));
    assert!(value_of_pair(&PAIRS, 'a', '\u{301}') == Some('á'));
    assert!(value_of_pair(&PAIRS, 'e', '\u{301}').is_none());
}

#[test]
fn a_range_holds_its_first_and_its_last() {
    let held = [
        ('a', false),
        ('b', true),
        ('d', true),
        ('e', false),
        ('m', true),
    ];
    for (c, is_held) in held {
        assert!(holds(&RANGES, c) == is_held, "{c}");
    }
    assert!(range_order(5, 7, 4) == Ordering::Greater);
    assert!(range_order(5, 7, 8) == Ordering::Less);
    assert!(range_order(5, 7, 7) == Ordering::Equal);
}

#[test]
fn rows_rise_strictly() {
    assert!(rises(&[1, 2, 4], |a, b| a < b));
    assert!(!rises(&[1, 2, 2], |a, b| a < b));
    assert!(!rises(&[2, 1], |a, b| a < b));
}
