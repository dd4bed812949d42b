//! The tuples of a glyph's variations: each a part of the space of variations, with deltas of points (OpenType specification,
//! "OpenType Font Variations Common Table Formats", "Tuple variation store").

use crate::outline::reader::Reader;
use crate::outline::variations::Variations;
use crate::sfnt::{i16_at, tail};

const SHARED_POINTS: u16 = 0x8000;
const OWN_PEAK: u16 = 0x8000;
const OWN_ENDS: u16 = 0x4000;
const OWN_POINTS: u16 = 0x2000;
const NUMBER: u16 = 0x0FFF;

pub struct Tuple<'a> {
    /// Where its deltas hold in full; `None` where it names shared peaks that are not there.
    peaks: Option<&'a [u8]>,
    /// Where they begin to hold, and where they end, where that is said.
    ends: Option<(&'a [u8], &'a [u8])>,
    axis_count: usize,
    /// The points that it moves; none for all.
    pub points: Vec<usize>,
    pub deltas: &'a [u8],
}

/// The tuples of a glyph, up to one that is broken; `None` where there are none.
pub fn tuples_of<'a>(variations: &Variations<'a>, bytes: &'a [u8]) -> Option<Vec<Tuple<'a>>> {
    let mut headers = Reader(bytes);
    let count = headers.u16()?;
    let mut data = Reader(tail(bytes, headers.u16()?.into()));
    let shared = if count & SHARED_POINTS != 0 { packed_points(&mut data)? } else { Vec::new() };
    let next = |_| tuple(variations, &shared, &mut headers, &mut data);
    Some((0..count & NUMBER).map_while(next).collect())
}

fn tuple<'a>(
    variations: &Variations<'a>,
    shared: &[usize],
    headers: &mut Reader<'a>,
    data: &mut Reader<'a>,
) -> Option<Tuple<'a>> {
    let size = headers.u16()?.into();
    let flags = headers.u16()?;
    let coordinates = 2 * variations.axis_count;
    let peaks = match flags & OWN_PEAK {
        0 => variations.shared_tuple((flags & NUMBER).into()),
        _ => Some(headers.take(coordinates)?),
    };
    let ends = match flags & OWN_ENDS {
        0 => None,
        _ => Some((headers.take(coordinates)?, headers.take(coordinates)?)),
    };
    let mut own = Reader(data.take(size)?);
    let points = if flags & OWN_POINTS != 0 { packed_points(&mut own)? } else { shared.to_vec() };
    Some(Tuple { peaks, ends, axis_count: variations.axis_count, points, deltas: own.0 })
}

/// The numbers of points ("Packed point numbers"); none for all of them.
fn packed_points(rest: &mut Reader) -> Option<Vec<usize>> {
    const ARE_WORDS: u8 = 0x80;
    let first = usize::from(rest.u8()?);
    let count = if first < 0x80 { first } else { (first & 0x7F) << 8 | usize::from(rest.u8()?) };
    let mut points: Vec<usize> = Vec::with_capacity(count);
    let mut point = 0;
    while points.len() < count {
        let control = rest.u8()?;
        let run = usize::from(control & 0x7F) + 1;
        for _ in 0..run.min(count - points.len()) {
            point += if control & ARE_WORDS != 0 { usize::from(rest.u16()?) } else { usize::from(rest.u8()?) };
            points.push(point);
        }
    }
    Some(points)
}

impl Tuple<'_> {
    pub fn is_for_all(&self) -> bool {
        self.points.is_empty()
    }

    /// How much of the deltas holds at these coordinates: the product over all axes.
    pub fn scalar(&self, coordinates: &[i32]) -> f32 {
        let Some(peaks) = self.peaks else {
            return 0.0;
        };
        let mut scalar = 1.0;
        for axis in 0..self.axis_count {
            let number = |tuple: &[u8]| i32::from(i16_at(tuple, 2 * axis));
            let ends = self.ends.map(|(start, end)| (number(start), number(end)));
            let factor = factor(number(peaks), ends, coordinates.get(axis).copied().unwrap_or(0));
            if factor == 0.0 {
                return 0.0;
            }
            scalar *= factor;
        }
        scalar as f32
    }
}

/// How much of the deltas an axis leaves at a coordinate.
fn factor(peak: i32, ends: Option<(i32, i32)>, at: i32) -> f64 {
    if peak == 0 || at == peak {
        return 1.0;
    }
    let Some((start, end)) = ends else {
        let is_beyond = at == 0 || at < peak.min(0) || at > peak.max(0);
        return if is_beyond { 0.0 } else { f64::from(at) / f64::from(peak) };
    };
    if start > peak || peak > end || (start < 0 && end > 0) {
        1.0
    } else if at < start || end < at {
        0.0
    } else if at < peak {
        f64::from(at - start) / f64::from(peak - start)
    } else {
        f64::from(end - at) / f64::from(end - peak)
    }
}
