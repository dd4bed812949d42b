// Written by tools/plain_rust from crates/ot_lookups. Do not edit.

//! The subtables of lookups, with what several kinds have in common parsed once.

use crate::font_tables::bytes::{table_at_32, tail, u16_at};
use crate::font_tables::class_definition::ClassDefinition;
use crate::font_tables::coverage::Coverage;
use crate::glyph_digests::digest::Digest;
use crate::glyph_digests::first_glyphs::FirstGlyphs;
use crate::ot_lookups::subtable_kind::SubtableKind;

/// The most glyphs that a match takes (HarfBuzz, `HB_MAX_CONTEXT_LENGTH`).
pub const MAX_CONTEXT_LENGTH: usize = 64;

/// A subtable of a lookup.
///
/// # Proved
///
/// ```text
/// ghost digests: { HasAll (λ glyph. is_some (covered_index coverage.table.now glyph) ≡ true) digest }
/// ghost firsts_are: { (glyph : ℕ) → is_some (covered_index coverage.table.now glyph) ≡ true → may_have_first firsts glyph ≡ true }
/// ghost ligatures: { AreSeconds table.now seconds }
/// ```
#[derive(Clone, Copy, Debug)]
pub struct Subtable<'a> {
    /// What it does; behind an extension, what the subtable there does.
    pub kind: SubtableKind,
    /// The bytes of the subtable, and what stands after it.
    pub table: &'a [u8],
    /// The glyphs that it is for: those at the cursor.
    pub coverage: Coverage<'a>,
    /// The digest of these glyphs.
    pub digest: Digest,
    /// Those of them that are among the first 256.
    pub firsts: FirstGlyphs,
    /// The bases, ligatures or marks that marks are attached to.
    pub bases: Coverage<'a>,
    /// The classes of glyphs, those of the input in a chained context, and of the first glyph in a pair.
    pub classes: ClassDefinition<'a>,
    /// The classes of the glyphs before the input in a chained context.
    pub backtrack_classes: ClassDefinition<'a>,
    /// The classes of the glyphs after the input in a chained context, and of the second glyph in a pair.
    pub lookahead_classes: ClassDefinition<'a>,
    /// What a context by coverages asks of the glyph after the one at the cursor, if it asks for anything there.
    pub next: Option<NextAsked<'a>>,
    /// Where the coverages of a context by coverages begin, or those around a reverse substitution, in
    /// `LookupList::coverages`.
    pub first_coverage: usize,
    /// The digest of the second glyphs of all ligatures of a subtable of ligatures; `None` where one has a single component.
    pub seconds: Option<Digest>,
}

impl Subtable<'_> {
    /// Whether the subtable may be for a glyph. Where its coverage has the glyph, it always may.
    ///
    /// # Proved
    ///
    /// ```text
    /// ensures { is_some (covered_index self.now.coverage.table.now glyph) ≡ true → IsTrue result }
    /// ```
    #[inline]
    pub fn may_be_for(&self, glyph: u32) -> bool {
        self.digest.may_have(glyph) && self.firsts.may_have(glyph)
    }
}

/// What a context by coverages asks of the glyph after the one at the cursor.
///
/// # Proved
///
/// ```text
/// ghost digests: { HasAll (λ glyph. is_some (covered_index coverage.table.now glyph) ≡ true) digest }
/// ```
#[derive(Clone, Copy, Debug)]
pub struct NextAsked<'a> {
    /// The glyphs that fit there.
    pub coverage: Coverage<'a>,
    /// The digest of these glyphs.
    pub digest: Digest,
    /// Whether the glyph is one of the input, and not one after it.
    pub is_input: bool,
}

impl<'a> NextAsked<'a> {
    /// Asks for a glyph of a coverage.
    ///
    /// # Proved
    ///
    /// ```text
    /// ensures asks { result.coverage ≡ coverage.entry }
    /// ensures input { result.is_input ≡ is_input }
    /// ```
    #[inline]
    pub fn new(coverage: Coverage<'a>, is_input: bool) -> Self {
        NextAsked {
            coverage,
            digest: next_digest(&coverage),
            is_input,
        }
    }
}

/// So many glyphs or ranges of glyphs have hardly a row without one of them.
const MANY_ROWS: u16 = 64;

/// The digest of the glyphs of a coverage, or of all glyphs where the coverage has many rows.
fn next_digest(coverage: &Coverage) -> Digest {
    if u16_at(coverage.table, 2).unwrap_or(0) > MANY_ROWS {
        Digest::full()
    } else {
        Digest::of_coverage(coverage)
    }
}

/// Where the list of offsets of coverages at a place ends, the number of them standing there.
///
/// # Proved
///
/// ```text
/// ensures { result ≡ min (at + (2 + 2 * unwrap_or (number_16 table.now at) 0)) (2 ^ 64 - 1) }
/// ```
#[inline]
pub fn behind_list(table: &[u8], at: usize) -> usize {
    let count = usize::from(u16_at(table, at).unwrap_or(0));
    at.saturating_add(2 + 2 * count)
}

/// The table that the offset at a place leads to, or an empty one.
///
/// # Proved
///
/// ```text
/// ensures { result.now ≡ unwrap_or (table_at_16 table.now at) [] }
/// ```
#[inline]
pub fn table_or_empty(table: &[u8], at: usize) -> &[u8] {
    match u16_at(table, at) {
        None | Some(0) => &[],
        Some(offset) => tail(table, usize::from(offset)),
    }
}

/// The kind and the subtable after an extension.
pub(crate) fn behind_extension(table: &[u8]) -> (u16, &[u8]) {
    match u16_at(table, 0) {
        Some(1) => (
            u16_at(table, 2).unwrap_or(0),
            table_at_32(table, 4).unwrap_or(&[]),
        ),
        _ => (0, &[]),
    }
}
