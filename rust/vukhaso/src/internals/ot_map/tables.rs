// Written by tools/plain_rust from crates/ot_map. Do not edit.

//! The script list and the feature list of a table `GSUB` or `GPOS` (OpenType specification, "OpenType Layout Common Table
//! Formats").

use crate::common::Tag;
use crate::font_tables::bytes::{table_at_16, u16_at, u32_at};
use crate::font_tables::rows::rows_within;
use crate::font_variations::feature_variations::substitute_of;

/// The lists of a table `GSUB` or `GPOS`, found once.
#[derive(Clone, Copy, Debug)]
pub struct LayoutTable<'a> {
    /// The script list; empty where the table has none.
    pub scripts: &'a [u8],
    /// The feature list; empty where the table has none.
    pub features: &'a [u8],
    /// How many lookups the table declares.
    pub lookup_count: u16,
    /// The feature tables that stand in the place of others, where variations of the font choose them: a
    /// FeatureTableSubstitution table, or an empty one.
    pub substitutions: &'a [u8],
}

impl<'a> LayoutTable<'a> {
    /// The lists of a table. One that is empty, or of another major version than 1, has no scripts,
    /// features and lookups.
    ///
    /// # Proved
    ///
    /// ```text
    /// ensures scripts { result.scripts.now ≡ list_of table.now 4 }
    /// ensures features { result.features.now ≡ list_of table.now 6 }
    /// ensures lookups { result.lookup_count ≡ lookup_count table.now }
    /// ensures substitutions { result.substitutions.now ≡ [] }
    /// ```
    #[inline]
    pub fn new(table: &'a [u8]) -> Self {
        LayoutTable {
            scripts: list_of(table, 4),
            features: list_of(table, 6),
            lookup_count: u16_at(list_of(table, 8), 0).unwrap_or(0),
            substitutions: &[],
        }
    }

    /// The tag of the feature with this number; `None` where there is no such feature.
    ///
    /// # Proved
    ///
    /// ```text
    /// ensures { option_map (λ tag. tag.0) result ≡ feature_tag self.now.features.now index }
    /// ```
    #[inline]
    pub fn feature_tag(&self, index: u16) -> Option<Tag> {
        let index = usize::from(index);
        if index < record_count(self.features, 0) {
            u32_at(self.features, 2 + 6 * index).map(|number| Tag(number))
        } else {
            None
        }
    }

    /// The table of the feature with this number, which lists its lookups: the one that stands in its
    /// place, if there is one. An empty one where there is no such feature.
    ///
    /// # Proved
    ///
    /// ```text
    /// ensures { result.now ≡ chosen_feature_table self.now.features.now self.now.substitutions.now index }
    /// ```
    #[inline]
    pub fn feature_table(&self, index: u16) -> &'a [u8] {
        match substitute_of(self.substitutions, index) {
            Some(table) => table,
            None => feature_table(self.features, index),
        }
    }

    /// The number of the first feature with a tag, of whatever script.
    ///
    /// # Proved
    ///
    /// ```text
    /// ensures { option_map (λ index. index) result ≡ first_record self.now.features.now 0 tag.0 }
    /// ```
    #[inline]
    pub fn first_feature(&self, tag: Tag) -> Option<u16> {
        match first_record(self.features, 0, tag) {
            Some(row) => Some(row as u16),
            None => None,
        }
    }
}

/// The list that the offset at a place leads to.
fn list_of(table: &[u8], at: usize) -> &[u8] {
    if matches!(u16_at(table, 0), Some(1)) {
        table_at_16(table, at).unwrap_or(&[])
    } else {
        &[]
    }
}

/// How many records lie in a list, whose count stands at a place.
///
/// # Requires
///
/// - `at ≤ 2`
fn record_count(list: &[u8], at: usize) -> usize {
    debug_assert!(at <= 2);
    rows_within(list, at + 2, 6, usize::from(u16_at(list, at).unwrap_or(0)))
}

/// The first record of a list that has a tag, by its number.
///
/// # Requires
///
/// - `at ≤ 2`
pub(crate) fn first_record(list: &[u8], at: usize, tag: Tag) -> Option<usize> {
    debug_assert!(at <= 2);
    let count = record_count(list, at);
    first_with_tag(list, at, count, tag)
}

/// The first of so many records that has a tag, by its number.
///
/// # Requires
///
/// - `place: at ≤ 2`
/// - `few: count ≤ 65536`
fn first_with_tag(list: &[u8], at: usize, count: usize, tag: Tag) -> Option<usize> {
    debug_assert!(at <= 2);
    debug_assert!(count <= 65536);
    for row in 0..count {
        if has_tag(list, at, row, tag) {
            return Some(row);
        }
    }
    None
}

/// Whether a record has a tag.
///
/// # Requires
///
/// - `place: at ≤ 2`
/// - `few: row < 65536`
fn has_tag(list: &[u8], at: usize, row: usize, tag: Tag) -> bool {
    debug_assert!(at <= 2);
    debug_assert!(row < 65536);
    match u32_at(list, at + 2 + 6 * row) {
        Some(number) => number == tag.0,
        None => false,
    }
}

/// The table that a record leads to.
///
/// # Requires
///
/// - `place: at ≤ 2`
/// - `few: row < 65536`
pub(crate) fn table_of_record(list: &[u8], at: usize, row: usize) -> &[u8] {
    debug_assert!(at <= 2);
    debug_assert!(row < 65536);
    table_at_16(list, at + 6 + 6 * row).unwrap_or(&[])
}

/// The table of the feature with this number in a list; an empty one where there is no such feature.
fn feature_table(features: &[u8], index: u16) -> &[u8] {
    let index = usize::from(index);
    if index < record_count(features, 0) {
        table_of_record(features, 0, index)
    } else {
        &[]
    }
}

/// How many lookups the table of a feature lists.
pub(crate) fn feature_lookup_count(feature: &[u8]) -> usize {
    rows_within(feature, 4, 2, usize::from(u16_at(feature, 2).unwrap_or(0)))
}
