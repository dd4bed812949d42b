// Written by tools/plain_rust from crates/script_joining. Do not edit.

//! The types of letters by which they join.

use crate::glyph::row_search::{range_order, row_at};
use crate::script_joining::joining::rows::ROWS;

/// How a character joins its neighbours (Unicode, Joining_Type, and for two groups of Syriac letters Joining_Group).
#[derive(Clone, Copy, PartialEq, Eq, Debug)]
pub enum JoiningType {
    /// It joins on no side.
    NonJoining,
    /// It joins to the next letter, and not to the one before.
    Left,
    /// It joins to the letter before, and not to the next one.
    Right,
    /// It joins on both sides, or makes its neighbours join.
    Dual,
    /// The Syriac letter alaph, which joins to the letter before, and has forms of its own at the end of a word.
    Alaph,
    /// The Syriac letters dalath and rish, which join to the letter before; an alaph behind them has a form of its own.
    DalathRish,
    /// A mark or a format character, which letters join across.
    Transparent,
}

use JoiningType::*;

impl JoiningType {
    /// Whether a letter of this type joins to the next one.
    ///
    /// # Proved
    ///
    /// ```text
    /// ensures { result ≡ joins_next self }
    /// ```
    #[inline]
    pub fn joins_next(self) -> bool {
        matches!(self, Left | Dual)
    }

    /// Whether a letter of this type joins to the one before.
    ///
    /// # Proved
    ///
    /// ```text
    /// ensures { result ≡ joins_previous self }
    /// ```
    #[inline]
    pub fn joins_previous(self) -> bool {
        matches!(self, Right | Dual | Alaph | DalathRish)
    }

    /// The type of the letter that is nearest to a place: this one next to it, and where that is
    /// transparent the nearest beyond.
    ///
    /// # Proved
    ///
    /// ```text
    /// ensures { result ≡ nearest self beyond }
    /// ```
    #[inline]
    pub fn or_beyond(self, beyond: JoiningType) -> JoiningType {
        match self {
            Transparent => beyond,
            _ => self,
        }
    }

    /// The number under which an item keeps the type.
    pub(crate) fn number(self) -> u8 {
        self as u8
    }

    /// The type with a number.
    pub(crate) fn of_number(number: u8) -> JoiningType {
        match number {
            1 => Left,
            2 => Right,
            3 => Dual,
            4 => Alaph,
            5 => DalathRish,
            6 => Transparent,
            _ => NonJoining,
        }
    }
}

/// How a character joins: as Unicode lists it, and where it does not, marks and format characters are
/// transparent, and all others join on no side.
///
/// # Proved
///
/// ```text
/// ensures { result ≡ joining_type character is_mark_or_format }
/// ```
#[inline]
pub fn joining_type(character: u32, is_mark_or_format: bool) -> JoiningType {
    match kind_in(&ROWS, character) {
        Some(kind) => kind,
        None if is_mark_or_format => Transparent,
        None => NonJoining,
    }
}

/// What the row that holds the character has.
///
/// # Requires
///
/// - `IsTrue (are_apart rows.now)`
fn kind_in(rows: &[(char, char, JoiningType)], c: u32) -> Option<JoiningType> {
    row_at(rows, |row| range_order(row.0 as u32, row.1 as u32, c)).map(|row| row.2)
}
