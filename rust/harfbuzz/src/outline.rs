//! The paths of glyphs, from the tables `glyf`, `gvar`, `CFF ` and `CFF2`.
//!
//! This is a plain reader of this layer's own, which is not proved: that of the package reads outlines for their bounds alone.
//! Numbers are computed in HarfBuzz's order, so that they are rounded as there.

mod bold;
mod cff;
mod charstring;
mod components;
mod contours;
mod curves;
mod dict;
mod glyf;
mod inference;
mod reader;
mod tuples;
mod variations;

pub use bold::embolden;

use crate::font::hb_font_t;

/// A point, or how far it is to one, in font units or at a size.
#[derive(Clone, Copy, Default, Debug, PartialEq)]
pub struct Point {
    pub x: f32,
    pub y: f32,
}

impl Point {
    pub fn plus(self, other: Point) -> Point {
        Point { x: self.x + other.x, y: self.y + other.y }
    }

    pub fn minus(self, other: Point) -> Point {
        Point { x: self.x - other.x, y: self.y - other.y }
    }

    fn middle(self, other: Point) -> Point {
        Point { x: (self.x + other.x) * 0.5, y: (self.y + other.y) * 0.5 }
    }
}

/// A part of a path, from the point where the part before it ended.
#[derive(Clone, Copy, Debug, PartialEq)]
pub enum Segment {
    Move(Point),
    Line(Point),
    Quadratic(Point, Point),
    Cubic(Point, Point, Point),
    Close,
}

impl Segment {
    /// Where it ends; a path that is closed is at the origin.
    pub fn end(self) -> Point {
        match self {
            Segment::Move(end) | Segment::Line(end) | Segment::Quadratic(_, end) | Segment::Cubic(_, _, end) => end,
            Segment::Close => Point::default(),
        }
    }

    pub fn mapped(self, map: impl Fn(Point) -> Point) -> Self {
        match self {
            Segment::Move(end) => Segment::Move(map(end)),
            Segment::Line(end) => Segment::Line(map(end)),
            Segment::Quadratic(control, end) => Segment::Quadratic(map(control), map(end)),
            Segment::Cubic(first, second, end) => Segment::Cubic(map(first), map(second), map(end)),
            Segment::Close => Segment::Close,
        }
    }
}

/// Takes a path in font units, and keeps it at a size.
struct Pen {
    path: Vec<Segment>,
    times: Point,
}

impl Pen {
    fn scaled(&self, point: Point) -> Point {
        Point { x: point.x * self.times.x, y: point.y * self.times.y }
    }

    fn push(&mut self, segment: Segment) {
        self.path.push(segment);
    }
}

/// The path of a glyph at the font's size and place in its variations; an empty one where it has none.
pub fn path_of(font: &hb_font_t, glyph: u32) -> Vec<Segment> {
    let (x, y) = font.scale();
    let units = font.face().units_per_em() as f32;
    let mut pen = Pen { path: Vec::new(), times: Point { x: x as f32 / units, y: y as f32 / units } };
    let Ok(glyph) = u16::try_from(glyph) else {
        return pen.path;
    };
    let coordinates = font.coordinates();
    // What a broken charstring drew stays, as in HarfBuzz.
    let _is_drawn = glyf::draw(font.face(), glyph, &coordinates, &mut pen)
        || cff::draw_2(font.face(), glyph, &coordinates, &mut pen)
        || cff::draw(font.face(), glyph, &mut pen);
    pen.path
}
