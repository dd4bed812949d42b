// Written by tools/plain_rust from crates/ot_gpos_tables. Do not edit.

//! A font at a size, and at a place in its variations.

use crate::font_tables::scale::Scale;
use crate::font_variations::Deltas;
use crate::font_variations::rounding::{float, rounded};

/// A font at a size, and at a place in its variations.
#[derive(Clone, Copy, Debug)]
pub struct Instance<'a> {
    /// The size.
    pub scale: Scale,
    /// The deltas of the font's lookups at the place that is chosen.
    pub deltas: Deltas<'a>,
}

impl Instance<'_> {
    /// How far a delta set moves a point to the right, at this size; not at all where no variations are
    /// chosen.
    ///
    /// # Proved
    ///
    /// ```text
    /// ensures { result ≡ x_delta self.now index }
    /// ```
    #[inline]
    pub fn x_delta(&self, index: u32) -> i32 {
        if self.deltas.is_varied() {
            scaled_delta(
                self.deltas.delta(index),
                self.scale.x,
                self.scale.units_per_em,
            )
        } else {
            0
        }
    }

    /// How far a delta set moves a point upwards, at this size; not at all where no variations are chosen.
    ///
    /// # Proved
    ///
    /// ```text
    /// ensures { result ≡ y_delta self.now index }
    /// ```
    #[inline]
    pub fn y_delta(&self, index: u32) -> i32 {
        if self.deltas.is_varied() {
            scaled_delta(
                self.deltas.delta(index),
                self.scale.y,
                self.scale.units_per_em,
            )
        } else {
            0
        }
    }
}

/// A number of font units where an em is `size` long, to the nearest whole number.
fn scaled_delta(delta: f32, size: i32, units_per_em: u16) -> i32 {
    rounded(delta * (float(size) / float(i32::from(units_per_em))))
}
