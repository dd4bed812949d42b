// Written by tools/plain_rust from crates/shaping_passes. Do not edit.

//! What is asked of characters by their numbers.

use crate::buffer::{CharExt, CombiningClasses, Compositions, Decompositions};

/// The two parts that a character is taken into, the second U+0000 where there is none.
pub(crate) fn parts_of(decompositions: &Decompositions, id: u32) -> Option<(u32, u32)> {
    match char::from_u32(id) {
        Some(c) => match parts_of_char(decompositions, c) {
            Some((first, second)) => Some((first as u32, second as u32)),
            None => None,
        },
        None => None,
    }
}

/// The two parts of a character, by the rule of Hangul or by the table.
fn parts_of_char(decompositions: &Decompositions, c: char) -> Option<(char, char)> {
    crate::glyph::decompose(decompositions, c)
}

/// The character that two compose to.
pub(crate) fn composed_of(compositions: &Compositions, first: u32, second: u32) -> Option<u32> {
    match char::from_u32(first) {
        Some(a) => match char::from_u32(second) {
            Some(b) => match composed_of_chars(compositions, a, b) {
                Some(composed) => Some(composed as u32),
                None => None,
            },
            None => None,
        },
        None => None,
    }
}

/// The same of two characters.
fn composed_of_chars(compositions: &Compositions, a: char, b: char) -> Option<char> {
    crate::glyph::compose(compositions, a, b)
}

/// The class that a mark is reordered by, and 0 of any other character.
pub(crate) fn class_of(classes: &CombiningClasses, id: u32) -> u8 {
    match char::from_u32(id) {
        Some(c) => c.modified_combining_class(classes),
        None => 0,
    }
}
