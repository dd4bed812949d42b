// Written by tools/plain_rust from crates/font_colors. Do not edit.

//! Bounds of what is painted (OpenType specification, "COLR - Color Table", "Glyph metrics and boundedness").

use crate::font_colors::extents::Extents;

/// How far what is painted reaches.
#[derive(Clone, Copy, Debug)]
pub(crate) enum Status {
    /// Everywhere.
    Unbounded,
    /// As far as a box.
    Bounded,
    /// Nowhere.
    Empty,
}

/// Bounds of what is painted. A box that no longer counts is kept, as HarfBuzz keeps it, which gives the box of a glyph whether it
/// counts or not.
#[derive(Clone, Copy, Debug)]
pub(crate) struct Bounds {
    /// How far it reaches.
    pub status: Status,
    /// The box that it reaches to, where it is bounded.
    pub extents: Extents,
}

impl Bounds {
    /// Bounds of what is everywhere.
    pub(crate) const UNBOUNDED: Bounds = Bounds {
        status: Status::Unbounded,
        extents: Extents::VOID,
    };

    /// Bounds of what is nowhere.
    pub(crate) const EMPTY: Bounds = Bounds {
        status: Status::Empty,
        extents: Extents::VOID,
    };

    /// The bounds of a box.
    pub(crate) fn of(extents: Extents) -> Self {
        let status = if extents.is_empty() {
            Status::Empty
        } else {
            Status::Bounded
        };
        Bounds { status, extents }
    }

    /// The bounds of what is painted by one of two.
    pub(crate) fn united(&self, other: &Bounds) -> Bounds {
        match (self.status, other.status) {
            (_, Status::Empty) => *self,
            (_, Status::Unbounded) => Bounds {
                status: Status::Unbounded,
                extents: self.extents,
            },
            (Status::Empty, Status::Bounded) => *other,
            (Status::Bounded, Status::Bounded) => Bounds {
                status: Status::Bounded,
                extents: self.extents.joined(&other.extents),
            },
            (Status::Unbounded, Status::Bounded) => *self,
        }
    }

    /// The bounds of what is painted by both.
    pub(crate) fn intersected(&self, other: &Bounds) -> Bounds {
        match (self.status, other.status) {
            (_, Status::Unbounded) => *self,
            (_, Status::Empty) => Bounds {
                status: Status::Empty,
                extents: self.extents,
            },
            (Status::Unbounded, Status::Bounded) => *other,
            (Status::Bounded, Status::Bounded) => Bounds::of(self.extents.common(&other.extents)),
            (Status::Empty, Status::Bounded) => *self,
        }
    }

    /// The bounds of a backdrop with a source that is put on it by a composite mode (OpenType
    /// specification, "PaintComposite table").
    pub(crate) fn composed(&self, source: &Bounds, mode: u8) -> Bounds {
        match mode {
            0 => Bounds {
                status: Status::Empty,
                extents: self.extents,
            },
            1 | 7 => *source,
            2 | 8 => *self,
            5 | 6 => self.intersected(source),
            _ => self.united(source),
        }
    }
}
