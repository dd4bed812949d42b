// Written by tools/plain_rust from crates/font_colors. Do not edit.

//! Boxes of what is drawn, in floats of 32 bits as HarfBuzz has them.

use crate::font_variations::rounding::{greater, lesser};

/// A box of what is drawn. One around nothing ends before it begins, as `Extents::VOID`.
#[derive(Clone, Copy, Debug)]
pub(crate) struct Extents {
    /// The left side.
    pub x_min: f32,
    /// The lower side.
    pub y_min: f32,
    /// The right side.
    pub x_max: f32,
    /// The upper side.
    pub y_max: f32,
}

impl Extents {
    /// The box around nothing. HarfBuzz takes its corners for points where such a box is turned or moved.
    pub(crate) const VOID: Extents = Extents {
        x_min: 0.0,
        y_min: 0.0,
        x_max: -1.0,
        y_max: -1.0,
    };

    /// Whether the box has no width or no height.
    pub(crate) fn is_empty(&self) -> bool {
        self.x_min >= self.x_max || self.y_min >= self.y_max
    }

    /// Whether the box is around nothing.
    pub(crate) fn is_void(&self) -> bool {
        self.x_min > self.x_max
    }

    /// The least box around two.
    pub(crate) fn joined(&self, other: &Extents) -> Extents {
        Extents {
            x_min: lesser(self.x_min, other.x_min),
            y_min: lesser(self.y_min, other.y_min),
            x_max: greater(self.x_max, other.x_max),
            y_max: greater(self.y_max, other.y_max),
        }
    }

    /// What two boxes have in common.
    pub(crate) fn common(&self, other: &Extents) -> Extents {
        Extents {
            x_min: greater(self.x_min, other.x_min),
            y_min: greater(self.y_min, other.y_min),
            x_max: lesser(self.x_max, other.x_max),
            y_max: lesser(self.y_max, other.y_max),
        }
    }

    /// The box around a point.
    pub(crate) fn at(x: f32, y: f32) -> Extents {
        Extents {
            x_min: x,
            y_min: y,
            x_max: x,
            y_max: y,
        }
    }
}
