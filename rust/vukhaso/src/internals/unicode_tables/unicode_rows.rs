// Written by tools/plain_rust from crates/unicode_tables. Do not edit.

//! The rows of all three tables in one value.

use crate::glyph::{CombiningClasses, Compositions, Decompositions};
use crate::memory::{AllocError, Vec};
use crate::unicode_tables::rows::{combining_classes, compositions, decompositions};

/// The rows of Unicode's tables, made once, and the tables over them.
///
/// # Proved
///
/// ```text
/// ghost classes_rise: { IsTrue (keys_rise classes.items) }
/// ghost classes_exact: { (c : ℕ) → IsScalar c
///     → find (λ row. row.0 == c) classes.items ≡ class_row c }
/// ghost decompositions_rise: { IsTrue (decompositions_rise decompositions.items) }
/// ghost decompositions_exact: { (c : ℕ) → IsScalar c
///     → find (λ row. row.0 == c) decompositions.items ≡ decomposition_row c }
/// ghost compositions_rise: { IsTrue (pairs_rise compositions.items) }
/// ghost compositions_exact: { (a b : ℕ) → composition_of a b compositions.items ≡ composite a b }
/// ```
#[derive(Debug)]
pub struct UnicodeRows {
    classes: Vec<(char, u8)>,
    decompositions: Vec<(char, char, Option<char>)>,
    compositions: Vec<((char, char), char)>,
}

impl UnicodeRows {
    /// The rows of the Unicode Character Database.
    ///
    /// # Errors
    ///
    /// It fails only where memory runs out for a row of one of them. `Err(AllocError)` where memory ran
    /// out.
    ///
    /// # Proved
    ///
    /// ```text
    /// ensures memory { OnErr result (HasClasses ⊎ (HasDecompositions ⊎ HasCompositions)) }
    /// ```
    #[inline]
    pub fn new() -> Result<Self, AllocError> {
        let classes = combining_classes()?;
        let decompositions = decompositions()?;
        let compositions = compositions()?;
        Ok(UnicodeRows {
            classes,
            decompositions,
            compositions,
        })
    }

    /// The combining classes: each character with a class other than 0.
    ///
    /// # Proved
    ///
    /// ```text
    /// ensures { (c : ℕ) → IsScalar c → find (λ row. row.0 == c) result ≡ class_row c }
    /// ```
    #[inline]
    pub fn classes(&self) -> CombiningClasses<'_> {
        CombiningClasses::new(self.classes.as_slice()).unwrap()
    }

    /// The canonical decompositions, in one step.
    ///
    /// # Proved
    ///
    /// ```text
    /// ensures { (c : ℕ) → IsScalar c → find (λ row. row.0 == c) result ≡ decomposition_row c }
    /// ```
    #[inline]
    pub fn decompositions(&self) -> Decompositions<'_> {
        Decompositions::new(self.decompositions.as_slice()).unwrap()
    }

    /// The primary composites, except those of Hangul.
    ///
    /// # Proved
    ///
    /// ```text
    /// ensures { (a b : ℕ) → composition_of a b result ≡ composite a b }
    /// ```
    #[inline]
    pub fn compositions(&self) -> Compositions<'_> {
        Compositions::new(self.compositions.as_slice()).unwrap()
    }
}
