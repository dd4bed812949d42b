// Written by tools/plain_rust from crates/font_variations. Do not edit.

//! Deltas of the numbers of a table (OpenType specification, "OpenType Font Variations Common Table Formats", "Item variation
//! stores").

use crate::font_tables::bytes::{table_at_32, u16_at};
use crate::font_variations::delta_sets::DeltaSets;
use crate::font_variations::index_map::DeltaSetIndex;
use crate::font_variations::regions::RegionList;

/// An item variation store.
#[derive(Clone, Copy, Debug)]
pub struct VariationStore<'a> {
    /// The bytes of the table.
    pub table: &'a [u8],
}

impl<'a> VariationStore<'a> {
    /// The store in these bytes. One that is empty, or of another format than 1, has no deltas.
    ///
    /// # Proved
    ///
    /// ```text
    /// ensures { result.table.now ≡ table.now }
    /// ```
    #[inline]
    pub fn new(table: &'a [u8]) -> Self {
        VariationStore { table }
    }

    /// The store of a table `GDEF`, which has the deltas of `GDEF`, `GPOS` and `BASE`; an empty one where
    /// it has none.
    ///
    /// # Proved
    ///
    /// ```text
    /// ensures { result.table.now ≡ gdef_store gdef.now }
    /// ```
    #[inline]
    pub fn of_gdef(gdef: &'a [u8]) -> Self {
        if matches!(u16_at(gdef, 0), Some(1)) && u16_at(gdef, 2).unwrap_or(0) >= 3 {
            VariationStore::new(table_at_32(gdef, 14).unwrap_or(&[]))
        } else {
            VariationStore::new(&[])
        }
    }

    /// The delta of a delta set at these coordinates; 0 where the store has no such set.
    ///
    /// # Proved
    ///
    /// ```text
    /// ensures { result ≡ delta self.now.table.now index coordinates.now }
    /// ```
    #[inline]
    pub fn delta(&self, index: DeltaSetIndex, coordinates: &[i32]) -> f32 {
        let outer = index / 65536;
        if !self.has_sets(outer) {
            return 0.0;
        }
        let sets = table_at_32(self.table, 8 + 4 * outer as usize).unwrap_or(&[]);
        let regions = RegionList {
            table: table_at_32(self.table, 2).unwrap_or(&[]),
        };
        DeltaSets::new(sets).delta((index % 65536) as u16, &regions, coordinates)
    }

    /// How many regions the deltas of a table with this number are for; none where the store has no such
    /// table.
    ///
    /// # Proved
    ///
    /// ```text
    /// ensures { result ≡ region_count self.now.table.now set }
    /// ```
    #[inline]
    pub fn region_count(&self, set: u16) -> u16 {
        u16_at(self.sets(set), 4).unwrap_or(0)
    }

    /// How much of the deltas of a region holds at these coordinates, by its place among those of a table
    /// of deltas.
    ///
    /// # Proved
    ///
    /// ```text
    /// ensures { result ≡ scalar_in self.now.table.now set place coordinates.now }
    /// ```
    #[inline]
    pub fn region_scalar(&self, set: u16, place: u16, coordinates: &[i32]) -> f32 {
        let regions = RegionList {
            table: table_at_32(self.table, 2).unwrap_or(&[]),
        };
        match u16_at(self.sets(set), 6 + 2 * usize::from(place)) {
            Some(region) => regions.scalar(region, coordinates),
            None => 0.0,
        }
    }

    /// The table of deltas with this number; an empty one where there is none.
    fn sets(&self, number: u16) -> &'a [u8] {
        if self.has_sets(u32::from(number)) {
            table_at_32(self.table, 8 + 4 * usize::from(number)).unwrap_or(&[])
        } else {
            &[]
        }
    }

    /// Whether the store has a table of deltas with this number.
    fn has_sets(&self, outer: u32) -> bool {
        matches!(u16_at(self.table, 0), Some(1))
            && outer < u32::from(u16_at(self.table, 6).unwrap_or(0))
    }
}

/// The deltas of a store at the place where a font stands in its variations.
#[derive(Clone, Copy, Debug)]
pub struct Deltas<'a> {
    /// The store.
    pub store: VariationStore<'a>,
    /// The coordinates of the place; none where no variations are chosen.
    pub coordinates: &'a [i32],
}

impl Deltas<'_> {
    /// No deltas.
    pub const NONE: Deltas<'static> = Deltas {
        store: VariationStore { table: &[] },
        coordinates: &[],
    };

    /// Whether variations are chosen.
    ///
    /// # Proved
    ///
    /// ```text
    /// ensures { result ≡ is_varied self.now }
    /// ```
    #[inline]
    pub fn is_varied(&self) -> bool {
        !self.coordinates.is_empty()
    }

    /// The delta of a delta set.
    ///
    /// # Proved
    ///
    /// ```text
    /// ensures { result ≡ chosen_delta self.now index }
    /// ```
    #[inline]
    pub fn delta(&self, index: DeltaSetIndex) -> f32 {
        self.store.delta(index, self.coordinates)
    }
}
