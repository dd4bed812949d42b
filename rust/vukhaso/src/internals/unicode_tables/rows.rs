// Written by tools/plain_rust from crates/unicode_tables. Do not edit.

//! The rows of each table.

use crate::memory::BTreeMap;
use crate::memory::{AllocError, TryIterator, Vec};
use crate::ucd_normal::{canonical_combining_class, composite};
use crate::unicode_tables::mapping::mapping;

/// One more than the greatest code point.
const CODE_POINTS: u32 = 0x11_0000;

/// The row of a character that has a class other than 0.
fn class_row(c: char) -> Option<(char, u8)> {
    let class = canonical_combining_class(c);
    if class == 0 { None } else { Some((c, class)) }
}

/// The row of a character that has a canonical decomposition.
fn decomposition_row(c: char) -> Option<(char, char, Option<char>)> {
    mapping(c).map(|parts| (c, parts.0, parts.1))
}

/// The rows of `CombiningClasses`: each character with a class other than 0. Memory is asked for where
/// there is a row.
///
/// # Errors
///
/// `Err(AllocError)` where memory ran out.
///
/// # Proved
///
/// ```text
/// ensures rises { IfOk result (λ rows. IsTrue (keys_rise rows.items)) }
/// ensures exact { IfOk result (λ rows. (c : ℕ) → IsScalar c
///     → find (λ row. row.0 == c) rows.items ≡ class_row c) }
/// ensures memory { OnErr result HasClasses }
/// ```
#[inline]
pub fn combining_classes() -> Result<Vec<(char, u8)>, AllocError> {
    let mut rows = Vec::new();
    for code in 0..CODE_POINTS {
        if let Some(c) = char::from_u32(code) {
            if let Some(row) = class_row(c) {
                rows.push(row)?;
            }
        }
    }
    Ok(rows)
}

/// The rows of `Decompositions`: each character with a canonical decomposition, and its parts in one
/// step. Memory is asked for where there is a row.
///
/// # Errors
///
/// `Err(AllocError)` where memory ran out.
///
/// # Proved
///
/// ```text
/// ensures rises { IfOk result (λ rows. IsTrue (decompositions_rise rows.items)) }
/// ensures exact { IfOk result (λ rows. (c : ℕ) → IsScalar c
///     → find (λ row. row.0 == c) rows.items ≡ decomposition_row c) }
/// ensures memory { OnErr result HasDecompositions }
/// ```
#[inline]
pub fn decompositions() -> Result<Vec<(char, char, Option<char>)>, AllocError> {
    let mut rows = Vec::new();
    for code in 0..CODE_POINTS {
        if let Some(c) = char::from_u32(code) {
            if let Some(row) = decomposition_row(c) {
                rows.push(row)?;
            }
        }
    }
    Ok(rows)
}

/// The two parts, if they compose to the character.
fn composed_parts(c: char, parts: Option<(char, Option<char>)>) -> Option<(char, char)> {
    match parts {
        Some((a, Some(b))) => {
            if composite(a, b) == Some(c) {
                Some((a, b))
            } else {
                None
            }
        }
        _ => None,
    }
}

/// The pair that composes to the character.
fn pair_of(c: char) -> Option<(char, char)> {
    composed_parts(c, mapping(c))
}

/// The entries of a map, in the order of their pairs. An empty map takes no memory.
fn entries(pairs: BTreeMap<(char, char), char>) -> Result<Vec<((char, char), char)>, AllocError> {
    if pairs.is_empty() {
        return Ok(Vec::new());
    }
    pairs.into_iter().try_into_vec()
}

/// The rows of `Compositions`: each pair that composes, and the character that it composes to. Memory
/// is asked for where there is a row.
///
/// # Errors
///
/// `Err(AllocError)` where memory ran out.
///
/// # Proved
///
/// ```text
/// ensures rises { IfOk result (λ rows. IsTrue (pairs_rise rows.items)) }
/// ensures exact { IfOk result (λ rows. (a b : ℕ) → composition_of a b rows.items ≡ composite a b) }
/// ensures memory { OnErr result HasCompositions }
/// ```
#[inline]
pub fn compositions() -> Result<Vec<((char, char), char)>, AllocError> {
    let mut pairs = BTreeMap::new();
    for code in 0..CODE_POINTS {
        if let Some(c) = char::from_u32(code) {
            if let Some(pair) = pair_of(c) {
                let _ = pairs.insert(pair, c)?;
            }
        }
    }
    let rows = entries(pairs)?;
    Ok(rows)
}
