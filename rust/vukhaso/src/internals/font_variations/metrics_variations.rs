// Written by tools/plain_rust from crates/font_variations. Do not edit.

//! Variations of advances, side bearings and vertical origins (OpenType specification, "HVAR - Horizontal Metrics Variations
//! Table" and "VVAR - Vertical Metrics Variations Table").

use crate::common::GlyphId;
use crate::font_tables::bytes::{table_at_32, u16_at};
use crate::font_variations::index_map::IndexMap;
use crate::font_variations::rounding::rounded;
use crate::font_variations::variation_store::VariationStore;

/// A table `HVAR` or `VVAR`.
///
/// # Proved
///
/// ```text
/// ghost has_store: { store.table.now ≡ store_of table.now }
/// ```
#[derive(Clone, Copy, Debug)]
pub struct MetricsVariations<'a> {
    /// The bytes of the table.
    pub table: &'a [u8],
    store: VariationStore<'a>,
}

impl<'a> MetricsVariations<'a> {
    /// The table in these bytes. `None` where it is empty, cut short, or of another major version than 1.
    ///
    /// # Proved
    ///
    /// ```text
    /// ensures { option_map (λ metrics. metrics.table.now) result ≡ metrics_table table.now }
    /// ```
    #[inline]
    pub fn new(table: &'a [u8]) -> Option<Self> {
        if table.len() >= 20 && matches!(u16_at(table, 0), Some(1)) {
            Some(MetricsVariations {
                table,
                store: VariationStore::new(table_at_32(table, 4).unwrap_or(&[])),
            })
        } else {
            None
        }
    }

    /// By how much a glyph's advance changes, in whole font units.
    ///
    /// # Proved
    ///
    /// ```text
    /// ensures { result ≡ advance_delta self.now.table.now glyph.0 coordinates.now }
    /// ```
    #[inline]
    pub fn advance_delta(&self, glyph: GlyphId, coordinates: &[i32]) -> i32 {
        let map = IndexMap::new(table_at_32(self.table, 8).unwrap_or(&[]));
        rounded(
            self.store
                .delta(map.index_of(u32::from(glyph.0)), coordinates),
        )
    }

    /// By how much a glyph's left or top side bearing changes, in whole font units; `None` where the table
    /// has no map for it.
    ///
    /// # Proved
    ///
    /// ```text
    /// ensures { result ≡ bearing_delta self.now.table.now glyph.0 coordinates.now }
    /// ```
    #[inline]
    pub fn bearing_delta(&self, glyph: GlyphId, coordinates: &[i32]) -> Option<i32> {
        let map = IndexMap::new(table_at_32(self.table, 12)?);
        Some(rounded(
            self.store
                .delta(map.index_of(u32::from(glyph.0)), coordinates),
        ))
    }

    /// By how much a glyph's vertical origin is raised, in font units; 0 where the table has no map for it,
    /// as in `HVAR`.
    ///
    /// # Proved
    ///
    /// ```text
    /// ensures { result ≡ origin_delta self.now.table.now glyph.0 coordinates.now }
    /// ```
    #[inline]
    pub fn origin_delta(&self, glyph: GlyphId, coordinates: &[i32]) -> f32 {
        match table_at_32(self.table, 20) {
            Some(map) => {
                let map = IndexMap::new(map);
                self.store
                    .delta(map.index_of(u32::from(glyph.0)), coordinates)
            }
            None => 0.0,
        }
    }
}
