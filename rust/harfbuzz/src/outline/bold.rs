//! Bolder outlines, by the rule of FreeType's `FT_Outline_EmboldenXY`: each point moves along the line that halves the angle of its
//! contour there.

use crate::outline::{Point, Segment};

/// How much bolder, and how far all points move beside that.
#[derive(Clone, Copy)]
struct Strength {
    half: Point,
    shift: Point,
    is_clockwise: bool,
}

/// A direction, and how far it is that way.
#[derive(Clone, Copy)]
struct Way {
    unit: Point,
    length: f32,
}

/// A path of closed contours that is bolder by a strength.
pub fn embolden(path: &[Segment], strength: Point, shift: Point) -> Vec<Segment> {
    let mut path = path.to_vec();
    let half = Point { x: strength.x / 2.0, y: strength.y / 2.0 };
    let is_clockwise = path.split(|part| *part == Segment::Close).map(|part| area(&points_of(part))).sum::<f32>() < 0.0;
    for contour in path.split_mut(|part| *part == Segment::Close) {
        let moved = moved(&points_of(contour), Strength { half, shift, is_clockwise });
        let mut moved = moved.into_iter();
        for point in contour.iter_mut().flat_map(places) {
            *point = moved.next().unwrap_or(*point);
        }
    }
    path
}

fn places(part: &mut Segment) -> Vec<&mut Point> {
    match part {
        Segment::Move(end) | Segment::Line(end) => vec![end],
        Segment::Quadratic(control, end) => vec![control, end],
        Segment::Cubic(first, second, end) => vec![first, second, end],
        Segment::Close => Vec::new(),
    }
}

fn points_of(contour: &[Segment]) -> Vec<Point> {
    contour.iter().copied().flat_map(|mut part| places(&mut part).into_iter().map(|point| *point).collect::<Vec<_>>()).collect()
}

/// The area of the polygon of these points, which is negative where they stand clockwise, or the other way about.
fn area(points: &[Point]) -> f32 {
    let behind = points.iter().cycle().skip(1);
    points.iter().zip(behind).fold(0.0, |sum, (point, next)| sum + (point.x * next.y - point.y * next.x)) * 0.5
}

/// The points of a contour, moved. Points that stand at one place move together.
fn moved(points: &[Point], strength: Strength) -> Vec<Point> {
    let mut moved = points.to_vec();
    let count = points.len();
    let starts: Vec<usize> = (0..count).filter(|&place| points[place] != points[(place + count - 1) % count]).collect();
    if starts.len() < 2 {
        return moved;
    }
    for (number, &start) in starts.iter().enumerate() {
        let before = starts[(number + starts.len() - 1) % starts.len()];
        let behind = starts[(number + 1) % starts.len()];
        let by = shift_of(way(points[before], points[start]), way(points[start], points[behind]), strength);
        let mut place = start;
        while place != behind {
            moved[place] = moved[place].plus(strength.shift.plus(by));
            place = (place + 1) % count;
        }
    }
    moved
}

fn way(from: Point, to: Point) -> Way {
    let far = to.minus(from);
    let length = far.x.hypot(far.y);
    Way { unit: Point { x: far.x / length, y: far.y / length }, length }
}

/// By how much a point moves between the way to it and the way from it. One where the contour turns nearly back stays.
fn shift_of(to: Way, from: Way, strength: Strength) -> Point {
    let (one, other) = (to.unit, from.unit);
    let cosine = one.x * other.x + one.y * other.y;
    if cosine <= -15.0 / 16.0 {
        return Point::default();
    }
    let cosine = cosine + 1.0;
    let (across, sine) = (Point { x: one.y + other.y, y: one.x + other.x }, other.x * one.y - other.y * one.x);
    let (across, sine) = if strength.is_clockwise {
        (Point { x: -across.x, y: across.y }, -sine)
    } else {
        (Point { x: across.x, y: -across.y }, sine)
    };
    // Not further than the shorter of its two lines is long.
    let shorter = to.length.min(from.length);
    let part =
        |across: f32, half: f32| if half * sine <= shorter * cosine { across * half / cosine } else { across * shorter / sine };
    Point { x: part(across.x, strength.half.x), y: part(across.y, strength.half.y) }
}
