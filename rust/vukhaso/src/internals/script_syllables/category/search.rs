// Written by tools/plain_rust from crates/script_syllables. Do not edit.

//! The category of a character, by bisection.

use crate::glyph::row_search::{range_order, row_at};
use crate::script_syllables::category::Category;
use crate::script_syllables::category::position::Position;
use crate::script_syllables::category::rows::ROWS;

/// What a character is in a syllable, and where it stands there.
///
/// # Proved
///
/// That it returns.
#[inline]
pub fn category_of(character: u32) -> (Category, Position) {
    match row_of(&ROWS, character) {
        Some(found) => found,
        None => (Category::Other, Position::End),
    }
}

/// What the row that holds a character has.
///
/// # Requires
///
/// - `IsTrue (are_apart rows.now)`
fn row_of(
    rows: &[(char, char, Category, Position)],
    character: u32,
) -> Option<(Category, Position)> {
    row_at(rows, |row| {
        range_order(row.0 as u32, row.1 as u32, character)
    })
    .map(|row| (row.2, row.3))
}
