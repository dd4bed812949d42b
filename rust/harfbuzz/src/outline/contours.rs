//! The curves between the points of outlines (OpenType specification, "glyf - Glyph Data"; "Digitizing Letterform Designs").

use crate::outline::glyf::OutlinePoint;
use crate::outline::{Pen, Point, Segment};

/// Points that control a curve which has no end yet: one of a quadratic curve, or two of a cubic one.
#[derive(Clone, Copy, Default)]
struct Controls {
    before: Option<Point>,
    last: Option<Point>,
}

impl Controls {
    /// The curve to a point.
    fn curve_to(self, end: Point) -> Segment {
        match (self.before, self.last) {
            (Some(first), Some(second)) => Segment::Cubic(first, second, end),
            (None, Some(control)) => Segment::Quadratic(control, end),
            _ => Segment::Line(end),
        }
    }

    /// Takes one more point: whether there was room.
    fn take(&mut self, point: OutlinePoint) -> bool {
        if self.last.is_none() {
            self.last = Some(point.at);
        } else if point.is_cubic && self.before.is_none() {
            *self = Controls { before: self.last, last: Some(point.at) };
        } else {
            return false;
        }
        true
    }
}

/// Draws the contours of these points; points behind the last end are none.
pub fn draw_contours(points: &[OutlinePoint], pen: &mut Pen) {
    for contour in points.split_inclusive(|point| point.is_end) {
        if contour.last().is_some_and(|point| point.is_end) {
            draw_contour(contour, pen);
        } else {
            draw_open(contour, pen);
        }
    }
}

/// Where a contour begins: its first point on the curve, or one between two that control curves.
struct Start {
    at: Option<Point>,
    /// The points before it, by which the contour is closed.
    controls: Controls,
}

fn draw_open(contour: &[OutlinePoint], pen: &mut Pen) -> (Start, Controls) {
    let mut start = Start { at: None, controls: Controls::default() };
    let mut controls = Controls::default();
    for &point in contour {
        match start.at {
            None if point.is_on_curve => start.at = Some(point.at),
            None if start.controls.take(point) => continue,
            None => {
                start.at = start.controls.last.map(|last| last.middle(point.at));
                controls.last = Some(point.at);
            }
            Some(_) if point.is_on_curve => {
                pen.push(std::mem::take(&mut controls).curve_to(point.at));
                continue;
            }
            Some(_) => {
                draw_control(&mut controls, point, pen);
                continue;
            }
        }
        if let Some(at) = start.at {
            pen.push(Segment::Move(at));
        }
    }
    (start, controls)
}

/// Takes a point that controls a curve: where there are enough of them, a curve ends between it and the one before.
fn draw_control(controls: &mut Controls, point: OutlinePoint, pen: &mut Pen) {
    if controls.take(point) {
        return;
    }
    let Some(last) = controls.last else {
        return;
    };
    let middle = last.middle(point.at);
    if point.is_cubic {
        pen.push(controls.curve_to(middle));
        controls.before = None;
    } else {
        pen.push(Segment::Quadratic(last, middle));
    }
    controls.last = Some(point.at);
}

fn draw_contour(contour: &[OutlinePoint], pen: &mut Pen) {
    let (start, mut controls) = draw_open(contour, pen);
    if let (Some(first), Some(last)) = (start.controls.last, controls.last) {
        pen.push(controls.curve_to(last.middle(start.controls.before.unwrap_or(first))));
        controls.last = None;
    }
    match (start.at, start.controls.last) {
        (Some(at), Some(_)) => pen.push(start.controls.curve_to(at)),
        (Some(at), None) => pen.push(controls.curve_to(at)),
        (None, Some(only)) => {
            pen.push(Segment::Move(only));
            pen.push(Segment::Quadratic(only, only));
        }
        (None, None) => {}
    }
    pen.push(Segment::Close);
}
