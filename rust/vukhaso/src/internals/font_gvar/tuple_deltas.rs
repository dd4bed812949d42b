// Written by tools/plain_rust from crates/font_gvar. Do not edit.

//! The points of a tuple, and their deltas.

use crate::font_gvar::points::Point;
use crate::font_gvar::tuples::Tuple;
use crate::font_variations::packed_deltas::PackedDeltas;
use crate::font_variations::packed_points::PackedPoints;
use crate::font_variations::rounding::float;

/// The points of a tuple, each with its delta, which are read one after the other.
#[derive(Clone, Copy, Debug)]
pub(crate) struct TupleDeltas<'a> {
    /// Whether they are all points of the glyph, in their order.
    pub is_for_all: bool,
    points: PackedPoints<'a>,
    x: PackedDeltas<'a>,
    y: PackedDeltas<'a>,
    next: u32,
}

impl<'a> TupleDeltas<'a> {
    /// The points of a tuple, from the one with a number on, of a glyph with so many points, phantom points
    /// among them; `None` where they are broken.
    pub(crate) fn new(tuple: &Tuple<'a>, point_count: u32, first: u32) -> Option<Self> {
        let data = tuple.data?;
        let (mut points, deltas) = if tuple.has_points() {
            let points = PackedPoints::new(data)?;
            (points, points.behind()?)
        } else {
            (tuple.shared_points, data)
        };
        let is_for_all = points.left() == 0;
        let (count, skipped) = counts_of(&mut points, is_for_all, point_count, first);
        let mut x = PackedDeltas::new(deltas, count);
        x.skip(skipped)?;
        let mut y = PackedDeltas::new(x.behind()?, count);
        y.skip(skipped)?;
        let _behind = y.behind()?;
        Some(TupleDeltas {
            is_for_all,
            points,
            x,
            y,
            next: first,
        })
    }

    /// The next point, by its number, and its delta; `None` behind the last one.
    pub(crate) fn next(&mut self) -> Option<(u32, Point)> {
        let x = self.x.next()?;
        let y = self.y.next()?;
        let point = self.next_point()?;
        let delta = Point {
            x: float(x),
            y: float(y),
        };
        Some((point, delta))
    }

    /// The number of the next point.
    fn next_point(&mut self) -> Option<u32> {
        if self.is_for_all {
            let point = self.next;
            self.next = point.saturating_add(1);
            Some(point)
        } else {
            self.points.next()
        }
    }

    /// How many points are left.
    pub(crate) fn left(&self) -> u32 {
        self.x.left()
    }
}

/// How many deltas there are on each axis, and how many of them are passed over, of a glyph with so
/// many points, up to the one with a number.
fn counts_of(
    points: &mut PackedPoints<'_>,
    is_for_all: bool,
    point_count: u32,
    first: u32,
) -> (u32, u32) {
    if is_for_all {
        (point_count, first)
    } else {
        (u32::from(points.left()), points.skip_below(first))
    }
}
