// Written by tools/plain_rust from crates/font_gvar. Do not edit.

//! The points of outlines that are not put together of others (OpenType specification, "glyf - Glyph Data", "Simple Glyph
//! Description").

use crate::font_gvar::points::{OutlinePoint, Point};
use crate::font_tables::bytes::{i16_at, tail, u8_at, u16_at};
use crate::font_variations::rounding::float;
use crate::memory::{AllocError, Vec};
use crate::outline_tables::glyf::HEADER_SIZE;

/// How many points an outline of so many contours has; `None` where the outline is cut short.
pub(crate) fn point_count(outline: &[u8], contours: u16) -> Option<u32> {
    let behind = HEADER_SIZE + 2 * usize::from(contours);
    if contours == 0 || outline.len() < behind + 2 {
        return None;
    }
    Some(u32::from(u16_at(outline, behind - 2)?) + 1)
}

/// Adds the points of an outline of so many contours.
///
/// # Errors
///
/// `Ok(false)` where the outline is broken: then some may have been added.
pub(crate) fn push_points(
    points: &mut Vec<OutlinePoint>,
    outline: &[u8],
    contours: u16,
) -> Result<bool, AllocError> {
    let Some(count) = point_count(outline, contours) else {
        return Ok(false);
    };
    let Some(mut found) = PointReader::new(outline, contours, count) else {
        return Ok(false);
    };
    for _ in 0..count {
        let Some(at) = found.next() else {
            return Ok(false);
        };
        points.push(OutlinePoint { at, is_end: false })?;
    }
    let start = points.len().saturating_sub(count as usize);
    mark_ends(points.slice_mut(start..), outline, contours);
    Ok(true)
}

/// Marks the points that contours end with.
fn mark_ends(points: &mut [OutlinePoint], outline: &[u8], contours: u16) {
    for contour in 0..usize::from(contours) {
        if let Some(end) = u16_at(outline, HEADER_SIZE + 2 * contour) {
            if let Some(point) = points.get_mut(usize::from(end)) {
                point.is_end = true;
            }
        }
    }
}

/// The points of an outline, which are read one after the other.
#[derive(Clone, Copy, Debug)]
struct PointReader<'a> {
    flags: FlagReader<'a>,
    x: &'a [u8],
    y: &'a [u8],
    x_before: i32,
    y_before: i32,
}

/// The flags of points.
#[derive(Clone, Copy, Debug)]
struct FlagReader<'a> {
    rest: &'a [u8],
    flag: u8,
    repeats: u8,
}

impl FlagReader<'_> {
    /// The flags of the next point.
    fn next(&mut self) -> Option<u8> {
        if self.repeats > 0 {
            self.repeats -= 1;
            return Some(self.flag);
        }
        self.flag = u8_at(self.rest, 0)?;
        if self.flag & REPEATS != 0 {
            self.repeats = u8_at(self.rest, 1)?;
            self.rest = tail(self.rest, 2);
        } else {
            self.rest = tail(self.rest, 1);
        }
        Some(self.flag)
    }
}

const X_IS_SHORT: u8 = 0x02;

const Y_IS_SHORT: u8 = 0x04;

const REPEATS: u8 = 0x08;

const X_IS_SAME: u8 = 0x10;

const Y_IS_SAME: u8 = 0x20;

impl<'a> PointReader<'a> {
    /// The points of an outline, behind its instructions; `None` where it is cut short.
    fn new(outline: &'a [u8], contours: u16, count: u32) -> Option<Self> {
        let behind_ends = HEADER_SIZE + 2 * usize::from(contours);
        let instructions = usize::from(u16_at(outline, behind_ends)?);
        let rest = tail(outline, behind_ends + 2 + instructions);
        if rest.is_empty() {
            return None;
        }
        let flags = FlagReader {
            rest,
            flag: 0,
            repeats: 0,
        };
        let x = behind_flags(flags, count)?;
        let y = behind_coordinates(flags, x, count)?;
        Some(PointReader {
            flags,
            x,
            y,
            x_before: 0,
            y_before: 0,
        })
    }

    /// The next point.
    fn next(&mut self) -> Option<Point> {
        let flag = self.flags.next()?;
        let (x, x_size) = step(self.x, flag & X_IS_SHORT != 0, flag & X_IS_SAME != 0)?;
        let (y, y_size) = step(self.y, flag & Y_IS_SHORT != 0, flag & Y_IS_SAME != 0)?;
        self.x = tail(self.x, x_size);
        self.y = tail(self.y, y_size);
        self.x_before = self.x_before.saturating_add(x);
        self.y_before = self.y_before.saturating_add(y);
        Some(Point {
            x: float(self.x_before),
            y: float(self.y_before),
        })
    }
}

/// What follows the flags of so many points.
fn behind_flags(mut flags: FlagReader<'_>, count: u32) -> Option<&[u8]> {
    for _ in 0..count {
        let _flag = flags.next()?;
    }
    Some(flags.rest)
}

/// What follows the coordinates to the right of so many points.
fn behind_coordinates<'a>(
    mut flags: FlagReader<'_>,
    bytes: &'a [u8],
    count: u32,
) -> Option<&'a [u8]> {
    let mut rest = bytes;
    for _ in 0..count {
        let flag = flags.next()?;
        let (_, size) = step(rest, flag & X_IS_SHORT != 0, flag & X_IS_SAME != 0)?;
        rest = tail(rest, size);
    }
    Some(rest)
}

/// How far a coordinate is from the one before, and how many bytes say it; `None` where these are not
/// there.
fn step(bytes: &[u8], is_short: bool, is_same: bool) -> Option<(i32, usize)> {
    if is_short {
        let size = i32::from(u8_at(bytes, 0)?);
        Some((if is_same { size } else { -size }, 1))
    } else if is_same {
        Some((0, 0))
    } else {
        Some((i32::from(i16_at(bytes, 0)?), 2))
    }
}
