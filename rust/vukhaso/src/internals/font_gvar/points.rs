// Written by tools/plain_rust from crates/font_gvar. Do not edit.

//! Points of outlines.

/// A point, or by how much a point moves, in font units.
#[derive(Clone, Copy, PartialEq, Debug, Default)]
pub struct Point {
    /// To the right.
    pub x: f32,
    /// Upwards.
    pub y: f32,
}

impl Point {
    /// The point that lies so far from this one.
    ///
    /// # Proved
    ///
    /// ```text
    /// ensures { result ≡ moved self by }
    /// ```
    #[inline]
    pub fn moved(self, by: Point) -> Point {
        Point {
            x: self.x + by.x,
            y: self.y + by.y,
        }
    }

    /// The point so many times as far from the origin.
    ///
    /// # Proved
    ///
    /// ```text
    /// ensures { result ≡ times self factor }
    /// ```
    #[inline]
    pub fn times(self, factor: f32) -> Point {
        Point {
            x: self.x * factor,
            y: self.y * factor,
        }
    }

    /// How far it is from another point to this one.
    ///
    /// # Proved
    ///
    /// ```text
    /// ensures { result ≡ from self other }
    /// ```
    #[inline]
    pub fn from(self, other: Point) -> Point {
        Point {
            x: self.x - other.x,
            y: self.y - other.y,
        }
    }
}

/// A point of an outline.
#[derive(Clone, Copy, Debug)]
pub(crate) struct OutlinePoint {
    /// Where it is.
    pub at: Point,
    /// Whether a contour ends with it.
    pub is_end: bool,
}

/// By how much a point moves.
#[derive(Clone, Copy, Debug, Default)]
pub(crate) struct Delta {
    /// By how much.
    pub by: Point,
    /// Whether the font says it, and it is not inferred from other points.
    pub is_said: bool,
}
