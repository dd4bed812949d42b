// Written by tools/plain_rust from crates/rb_glyph. Do not edit.

//! Tables that a caller hands in: rows in the order of their keys, borrowed as they stand.
//!
//! The rows are meant to be those of the Unicode Character Database, which nothing checks. Nothing is
//! copied, and a row is found by bisection.

use crate::glyph::row_search::{rises, row_of, value_of, value_of_pair};

/// The canonical combining classes of characters (Unicode, field 3 of `UnicodeData.txt`).
///
/// A character without a row has class 0.
///
/// # Proved
///
/// ```text
/// ghost Value = { List (ℕ × ℕ) }
/// ghost view = { λ t. t.rows.now }
/// ghost invariant = { λ t. IsTrue (keys_rise t.rows.now) }
/// ```
#[derive(Debug)]
pub struct CombiningClasses<'a> {
    rows: &'a [(char, u8)],
}

impl<'a> CombiningClasses<'a> {
    /// A table of the rows, each a character and its class; `None` unless the characters rise strictly.
    ///
    /// # Proved
    ///
    /// ```text
    /// ensures { result ≡ (if keys_rise rows.now then Some rows.now else None) }
    /// ```
    #[inline]
    pub fn new(rows: &'a [(char, u8)]) -> Option<Self> {
        if rises(rows, |a, b| a.0 < b.0) {
            Some(CombiningClasses { rows })
        } else {
            None
        }
    }

    /// The class in the character's row.
    pub(crate) fn class_of(&self, c: char) -> Option<u8> {
        value_of(self.rows, c)
    }
}

/// The mirror images of characters (Unicode, `BidiMirroring.txt`).
///
/// # Proved
///
/// ```text
/// ghost Value = { List (ℕ × ℕ) }
/// ghost view = { λ t. t.rows.now }
/// ghost invariant = { λ t. IsTrue (keys_rise t.rows.now) }
/// ```
#[derive(Debug)]
pub struct Mirrors<'a> {
    rows: &'a [(char, char)],
}

impl<'a> Mirrors<'a> {
    /// A table of the rows, each a character and its mirror image; `None` unless the characters rise
    /// strictly.
    ///
    /// # Proved
    ///
    /// ```text
    /// ensures { result ≡ (if keys_rise rows.now then Some rows.now else None) }
    /// ```
    #[inline]
    pub fn new(rows: &'a [(char, char)]) -> Option<Self> {
        if rises(rows, |a, b| a.0 < b.0) {
            Some(Mirrors { rows })
        } else {
            None
        }
    }

    /// The mirror image in the character's row.
    pub(crate) fn mirror_of(&self, c: char) -> Option<char> {
        value_of(self.rows, c)
    }
}

/// The characters that pairs of characters compose to (Unicode, canonical composition).
///
/// # Proved
///
/// ```text
/// ghost Value = { List ((ℕ × ℕ) × ℕ) }
/// ghost view = { λ t. t.rows.now }
/// ghost invariant = { λ t. IsTrue (pairs_rise t.rows.now) }
/// ```
#[derive(Debug)]
pub struct Compositions<'a> {
    rows: &'a [((char, char), char)],
}

impl<'a> Compositions<'a> {
    /// A table of the rows, each a pair and what it composes to; `None` unless the pairs rise strictly.
    ///
    /// A pair is below another by its first character, and by its second where the first is the same.
    ///
    /// # Proved
    ///
    /// ```text
    /// ensures { result ≡ (if pairs_rise rows.now then Some rows.now else None) }
    /// ```
    #[inline]
    pub fn new(rows: &'a [((char, char), char)]) -> Option<Self> {
        if rises(rows, |a, b| a.0 < b.0) {
            Some(Compositions { rows })
        } else {
            None
        }
    }

    /// What the row of the pair says that it composes to.
    pub(crate) fn composition_of(&self, a: char, b: char) -> Option<char> {
        value_of_pair(self.rows, a, b)
    }
}

/// The canonical decompositions of characters, one step each (Unicode, field 5 of `UnicodeData.txt`).
///
/// # Proved
///
/// ```text
/// ghost Value = { List (ℕ × ℕ × Option ℕ) }
/// ghost view = { λ t. t.rows.now }
/// ghost invariant = { λ t. IsTrue (decompositions_rise t.rows.now) }
/// ```
#[derive(Debug)]
pub struct Decompositions<'a> {
    rows: &'a [(char, char, Option<char>)],
}

impl<'a> Decompositions<'a> {
    /// A table of the rows, each a character, the first part of its decomposition and the second, if there
    /// is one; `None` unless the characters rise strictly.
    ///
    /// # Proved
    ///
    /// ```text
    /// ensures { result ≡ (if decompositions_rise rows.now then Some rows.now else None) }
    /// ```
    #[inline]
    pub fn new(rows: &'a [(char, char, Option<char>)]) -> Option<Self> {
        if rises(rows, |a, b| a.0 < b.0) {
            Some(Decompositions { rows })
        } else {
            None
        }
    }

    /// The parts in the character's row, with U+0000 where there is no second.
    pub(crate) fn decomposition_of(&self, c: char) -> Option<(char, char)> {
        row_of(self.rows, c, |row| row.0).map(|row| (row.1, row.2.unwrap_or('\0')))
    }
}
