//! The operators of charstrings that draw (The Type 2 Charstring Format, "Path Construction Operators"). Numbers that make no whole
//! line or curve do nothing.

use crate::outline::Pen;
use crate::outline::charstring::{Charstring, Offset};

/// An operator; those of two bytes have 256 more than their second byte. One that is unknown does nothing. `None` where it has too
/// few numbers.
pub fn draw(path: &mut Charstring, operator: u16, pen: &mut Pen) -> Option<()> {
    let numbers = std::mem::take(&mut path.numbers);
    let numbers = &numbers[..];
    match operator {
        4 | 21 | 22 => path.move_by(moved(operator, numbers)?, pen),
        5 => lines(path, numbers, pen),
        6 | 7 => {
            for (place, &number) in numbers.iter().enumerate() {
                path.line_by(along((operator == 6) == (place % 2 == 0), number, 0.0), pen);
            }
        }
        8 => curves(path, numbers, pen),
        24 if numbers.len() >= 8 => {
            let (front, line) = numbers.split_at((numbers.len() - 2) / 6 * 6);
            curves(path, front, pen);
            lines(path, &line[..2], pen);
        }
        25 if numbers.len() >= 8 => {
            let (front, curve) = numbers.split_at((numbers.len() - 6) / 2 * 2);
            lines(path, front, pen);
            curves(path, curve, pen);
        }
        26 | 27 => parallel_curves(path, numbers, operator == 27, pen),
        30 | 31 => alternating_curves(path, numbers, operator == 31, pen),
        290..=293 => flexes(path, operator, numbers, pen)?,
        _ => {}
    }
    Some(())
}

/// How far `rmoveto`, `hmoveto` and `vmoveto` move. They take their numbers from the end: the glyph's width may stand before them.
fn moved(operator: u16, numbers: &[f64]) -> Option<Offset> {
    match (operator, numbers) {
        (22, [.., number]) => Some(along(true, *number, 0.0)),
        (4, [.., number]) => Some(along(false, *number, 0.0)),
        (21, [.., x, y]) => Some(Offset { x: *x, y: *y }),
        _ => None,
    }
}

/// A distance along a direction and across it.
fn along(is_horizontal: bool, along: f64, across: f64) -> Offset {
    if is_horizontal { Offset { x: along, y: across } } else { Offset { x: across, y: along } }
}

fn lines(path: &mut Charstring, numbers: &[f64], pen: &mut Pen) {
    for line in numbers.chunks_exact(2) {
        path.line_by(Offset { x: line[0], y: line[1] }, pen);
    }
}

/// Draws a curve of three distances, each from the point before.
fn curve_by(path: &mut Charstring, first: Offset, second: Offset, end: Offset, pen: &mut Pen) {
    let first = path.at.plus(first);
    let second = first.plus(second);
    path.curve_to([first, second, second.plus(end)], pen);
}

fn curves(path: &mut Charstring, numbers: &[f64], pen: &mut Pen) {
    for six in numbers.chunks_exact(6) {
        let pair = |place: usize| Offset { x: six[place], y: six[place + 1] };
        curve_by(path, pair(0), pair(2), pair(4), pen);
    }
}

/// `hhcurveto` and `vvcurveto`: curves that begin and end in one direction, with a number before them for how far the first one
/// begins across it.
fn parallel_curves(path: &mut Charstring, numbers: &[f64], is_horizontal: bool, pen: &mut Pen) {
    let (before, fours) = numbers.split_at(numbers.len() % 2);
    let mut across = before.first().copied().unwrap_or(0.0);
    for four in fours.chunks_exact(4) {
        let second = Offset { x: four[1], y: four[2] };
        curve_by(path, along(is_horizontal, four[0], across), second, along(is_horizontal, four[3], 0.0), pen);
        across = 0.0;
    }
}

/// `hvcurveto` and `vhcurveto`: curves that begin and end in different directions, of which each goes on as the one before it ended,
/// with a number behind them for how far the last one ends across its direction.
fn alternating_curves(path: &mut Charstring, numbers: &[f64], is_horizontal: bool, pen: &mut Pen) {
    let count = numbers.len() / 4;
    let has_last = numbers.len() > 4 * count && (count % 2 == 1 || numbers.len() % 2 == 1);
    let mut is_horizontal = is_horizontal;
    for (place, four) in numbers.chunks_exact(4).enumerate() {
        let across = if has_last && place + 1 == count { numbers[4 * count] } else { 0.0 };
        let second = Offset { x: four[1], y: four[2] };
        curve_by(path, along(is_horizontal, four[0], 0.0), second, along(!is_horizontal, four[3], across), pen);
        is_horizontal = !is_horizontal;
    }
}

/// `hflex`, `flex`, `hflex1` and `flex1`: two curves. `None` where there are other numbers than they have.
fn flexes(path: &mut Charstring, operator: u16, numbers: &[f64], pen: &mut Pen) -> Option<()> {
    let start = path.at;
    let pair = |x: f64, y: f64| Offset { x, y };
    let steps: Vec<Offset> = match (operator, numbers) {
        (290, &[a, b, c, d, e, f, _]) => [pair(a, 0.0), pair(b, c), pair(d, 0.0), pair(e, 0.0), pair(f, 0.0)].to_vec(),
        (291, &[.., _]) if numbers.len() == 13 => numbers[..10].chunks_exact(2).map(|two| pair(two[0], two[1])).collect(),
        (292, &[a, b, c, d, e, f, g, h, _]) => [pair(a, b), pair(c, d), pair(e, 0.0), pair(f, 0.0), pair(g, h)].to_vec(),
        (293, &[.., _]) if numbers.len() == 11 => numbers[..10].chunks_exact(2).map(|two| pair(two[0], two[1])).collect(),
        _ => return None,
    };
    let mut points: Vec<Offset> = Vec::new();
    for step in &steps {
        points.push(points.last().copied().unwrap_or(start).plus(*step));
    }
    let last = numbers[numbers.len() - 1];
    if operator == 290 {
        // It ends at the height of its first point, from which the curve in between goes back.
        points[4].y = points[0].y;
    }
    let from = points[4];
    let far = steps.iter().fold(Offset::default(), |sum, step| sum.plus(*step));
    let end = match operator {
        290 => pair(from.x + last, from.y),
        291 => from.plus(pair(numbers[10], numbers[11])),
        292 => pair(from.x + last, start.y),
        _ if far.x.abs() > far.y.abs() => pair(from.x + last, start.y),
        _ => pair(start.x, from.y + last),
    };
    path.curve_to([points[0], points[1], points[2]], pen);
    path.curve_to([points[3], points[4], end], pen);
    Some(())
}
