// Written by tools/plain_rust from crates/rb_glyph. Do not edit.

//! Searches of sorted rows, by bisection.

use core::cmp::Ordering;

/// Whether each row is below the next.
///
/// # Requires
///
/// - `F.IsAlwaysCallable below`
///
/// # Proved
///
/// ```text
/// ensures { (test : R → R → Bool) → ComputesOnPairs F.FnMut test below
///     → result ≡ rise test rows.now }
/// ```
#[inline]
pub fn rises<R, F: FnMut(&R, &R) -> bool>(rows: &[R], below: F) -> bool {
    rows.is_sorted_by(below)
}

/// The row that `order` finds equal to what is asked, by bisection.
///
/// # Requires
///
/// - `F.IsAlwaysCallable order`
///
/// # Proved
///
/// ```text
/// ensures { (key : R → Order) → ComputesKey F.FnMut key order → IsSearchable key rows.now
///     → option_copied result ≡ find (λ row. is_eq (key row)) rows.now }
/// ```
#[inline]
pub fn row_at<R, F: FnMut(&R) -> Ordering>(rows: &[R], order: F) -> Option<&R> {
    match rows.binary_search_by(order) {
        Ok(at) => Some(&rows[at]),
        Err(_) => None,
    }
}

/// The row whose key is the character, by bisection of rows whose keys rise.
///
/// # Requires
///
/// - `F.IsAlwaysCallable key`
///
/// # Proved
///
/// ```text
/// ensures { (key_of : R → ℕ) → ComputesKey F.FnMut key_of key
///     → IsTrue (rise (λ a b. nat_lt (key_of a) (key_of b)) rows.now)
///     → option_copied result ≡ find (λ row. key_of row == c) rows.now }
/// ```
#[inline]
pub fn row_of<R, F: FnMut(&R) -> char>(rows: &[R], c: char, key: F) -> Option<&R> {
    match rows.binary_search_by_key(&c, key) {
        Ok(at) => Some(&rows[at]),
        Err(_) => None,
    }
}

/// What the row of the character holds, where the rows are pairs.
///
/// # Requires
///
/// - `IsTrue (keys_rise rows.now)`
///
/// # Proved
///
/// ```text
/// ensures { result ≡ value_of c rows.now }
/// ```
#[inline]
pub fn value_of<V: Copy>(rows: &[(char, V)], c: char) -> Option<V> {
    row_of(rows, c, |row| row.0).map(|row| row.1)
}

/// What the row of the pair holds, where each row is a pair of characters and a character.
///
/// # Requires
///
/// - `IsTrue (pairs_rise rows.now)`
///
/// # Proved
///
/// ```text
/// ensures { result ≡ composition_of a b rows.now }
/// ```
#[inline]
pub fn value_of_pair(rows: &[((char, char), char)], a: char, b: char) -> Option<char> {
    row_at(rows, |row| row.0.cmp(&(a, b))).map(|row| row.1)
}

/// How a range, from its first number to its last, is to a number: `Less` before it, `Greater` behind
/// it, `Equal` where it holds it.
///
/// # Proved
///
/// ```text
/// ensures { result ≡ range_order c (first, last) }
/// ```
#[inline(always)]
pub fn range_order(first: u32, last: u32, c: u32) -> Ordering {
    if c < first {
        Ordering::Greater
    } else if last < c {
        Ordering::Less
    } else {
        Ordering::Equal
    }
}

/// Whether one of the ranges, each from its first character to its last, holds the character.
///
/// # Requires
///
/// - `IsTrue (are_apart ranges.now)`
///
/// # Proved
///
/// ```text
/// ensures { result ≡ holds c ranges.now }
/// ```
#[inline]
pub fn holds(ranges: &[(char, char)], c: char) -> bool {
    row_at(ranges, |range| {
        range_order(range.0 as u32, range.1 as u32, c as u32)
    })
    .is_some()
}
