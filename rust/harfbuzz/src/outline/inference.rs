//! Deltas of points of which a font says none, inferred from those of their contour of which it does (OpenType specification, "gvar -
//! Glyph Variations Table", "Inferred deltas for un-referenced point numbers").

use crate::outline::Point;
use crate::outline::glyf::OutlinePoint;
use crate::outline::variations::Delta;

/// Infers the deltas that are not said, contour by contour. Points behind the last contour have none.
pub fn infer(points: &[OutlinePoint], deltas: &mut [Delta]) {
    let mut start = 0;
    for end in (0..points.len()).filter(|&place| points[place].is_end) {
        infer_contour(&points[start..=end], &mut deltas[start..=end]);
        start = end + 1;
    }
}

/// Each from the nearest two of which one is said, around the contour.
fn infer_contour(points: &[OutlinePoint], deltas: &mut [Delta]) {
    let said: Vec<usize> = (0..deltas.len()).filter(|&place| deltas[place].is_said).collect();
    let (Some(&first), Some(&last)) = (said.first(), said.last()) else {
        return;
    };
    for pair in said.windows(2) {
        fill(points, deltas, (pair[0], pair[1]), pair[0] + 1..pair[1]);
    }
    fill(points, deltas, (last, first), last + 1..points.len());
    fill(points, deltas, (last, first), 0..first);
}

fn fill(points: &[OutlinePoint], deltas: &mut [Delta], (before, behind): (usize, usize), places: std::ops::Range<usize>) {
    let (low, high) = (points[before].at, points[behind].at);
    let (low_by, high_by) = (deltas[before].by, deltas[behind].by);
    for place in places {
        let at = points[place].at;
        deltas[place].by = Point {
            x: inferred(at.x, (low.x, low_by.x), (high.x, high_by.x)),
            y: inferred(at.y, (low.y, low_by.y), (high.y, high_by.y)),
        };
    }
}

/// The delta of a coordinate, from two others with their deltas: evenly between them, and outside that of the nearer one.
fn inferred(at: f32, before: (f32, f32), behind: (f32, f32)) -> f32 {
    let (low, high) = if before.0 < behind.0 { (before, behind) } else { (behind, before) };
    if before.0 == behind.0 {
        if before.1 == behind.1 { before.1 } else { 0.0 }
    } else if at <= low.0 {
        low.1
    } else if at >= high.0 {
        high.1
    } else {
        let part = (at - before.0) / (behind.0 - before.0);
        before.1 + part * (behind.1 - before.1)
    }
}
