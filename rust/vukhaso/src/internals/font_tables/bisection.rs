// Written by tools/plain_rust from crates/font_tables. Do not edit.

//! The row that holds a key, by bisection as HarfBuzz does it.

use crate::font_tables::rows::{Keys16, Rows};
use core::cmp::Ordering;

/// Rows of a font's table, each for a key or for all keys from a first one to a last one.
///
/// # Proved
///
/// ```text
/// ghost beside_of: { Self → ℕ → ℕ → Option Order }
/// ```
pub trait KeyedRows {
    /// Where a key lies from a row: before it, in it or behind it; `None` where the row lies outside of the
    /// table.
    ///
    /// # Proved
    ///
    /// ```text
    /// ensures { result ≡ beside_of self.now key row }
    /// ```
    fn beside(&self, key: u32, row: usize) -> Option<Ordering>;
}

/// Where a key lies from a row that has one key.
///
/// # Proved
///
/// ```text
/// ensures { result ≡ beside_key own key }
/// ```
#[inline]
pub fn beside_key(own: Option<u32>, key: u32) -> Option<Ordering> {
    let own = own?;
    Some(if key < own {
        Ordering::Less
    } else if own < key {
        Ordering::Greater
    } else {
        Ordering::Equal
    })
}

///
/// # Proved
///
/// ```text
/// ghost beside_of = { λ keys key row. beside_key (number_16 keys.table.now (keys.start + keys.size * row)) key }
/// ```
impl KeyedRows for Keys16<'_> {
    fn beside(&self, key: u32, row: usize) -> Option<Ordering> {
        beside_key(self.last(row), key)
    }
}

/// The row that holds the key among the first `count` rows. It is found by bisection also where rows
/// are not in order, as HarfBuzz does it: then it may be missed, and of several that hold the key it
/// may be any.
///
/// # Proved
///
/// ```text
/// ensures is { result ≡ row_with (R.beside_of rows.now key) count }
/// ensures within { IfSome result (λ row. row < count) }
/// ensures holds { IfSome result (λ row. R.beside_of rows.now key row ≡ Some Equal) }
/// ensures all { AreInOrder (R.beside_of rows.now key) count → result ≡ None
///     → (row : ℕ) → row < count → R.beside_of rows.now key row ≡ Some Equal → ⊥ }
/// ```
#[inline]
pub fn row_with<R: KeyedRows>(rows: &R, count: usize, key: u32) -> Option<usize> {
    let mut low = 0;
    let mut high = count;
    while low < high {
        let middle = low + (high - 1 - low) / 2;
        match rows.beside(key, middle)? {
            Ordering::Less => high = middle,
            Ordering::Equal => return Some(middle),
            Ordering::Greater => low = middle + 1,
        }
    }
    None
}
