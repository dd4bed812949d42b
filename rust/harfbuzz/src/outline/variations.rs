//! The table `gvar`: by how much the points of outlines move (OpenType specification, "gvar - Glyph Variations Table").

use crate::outline::Point;
use crate::outline::glyf::OutlinePoint;
use crate::outline::inference::infer;
use crate::outline::reader::Reader;
use crate::outline::tuples::{Tuple, tuples_of};
use crate::sfnt::{tail, u16_at, u32_at};

pub struct Variations<'a> {
    table: &'a [u8],
    pub axis_count: usize,
    /// The tuples of coordinates that glyphs share, one after the other.
    shared: &'a [u8],
    shared_count: usize,
    glyph_count: u32,
}

/// By how much a point moves.
#[derive(Clone, Copy, Default)]
pub struct Delta {
    pub by: Point,
    /// Whether the font says it, and it is not inferred from other points.
    pub is_said: bool,
}

impl<'a> Variations<'a> {
    /// The variations of a font with so many glyphs; `None` where the table is broken or not there.
    pub fn new(table: &'a [u8], glyph_count: u32) -> Option<Self> {
        let (axis_count, shared_count) = (usize::from(u16_at(table, 4)), usize::from(u16_at(table, 6)));
        let shared = tail(table, u32_at(table, 8) as usize);
        let offset_size = if u16_at(table, 14) % 2 == 1 { 4 } else { 2 };
        let is_whole = u16_at(table, 0) == 1
            && shared.len() / 2 >= axis_count * shared_count
            && table.len() >= 20 + offset_size * (glyph_count as usize + 1);
        is_whole.then_some(Variations { table, axis_count, shared, shared_count, glyph_count })
    }

    /// A tuple of coordinates that glyphs share.
    pub fn shared_tuple(&self, number: usize) -> Option<&'a [u8]> {
        let size = 2 * self.axis_count;
        if number < self.shared_count { self.shared.get(number * size..(number + 1) * size) } else { None }
    }

    fn data_of(&self, glyph: u32) -> &'a [u8] {
        let offset = |number: usize| match u16_at(self.table, 14) % 2 {
            1 => u32_at(self.table, 20 + 4 * number) as usize,
            _ => 2 * usize::from(u16_at(self.table, 20 + 2 * number)),
        };
        if glyph >= self.glyph_count {
            return &[];
        }
        let data = tail(self.table, u32_at(self.table, 16) as usize);
        data.get(offset(glyph as usize)..offset(glyph as usize + 1)).unwrap_or(&[])
    }

    /// Moves points of a glyph, its phantom points among them. Where a tuple is broken, it and those behind it are passed over.
    pub fn vary(&self, glyph: u32, coordinates: &[i32], points: &mut [OutlinePoint]) {
        let Some(tuples) = tuples_of(self, self.data_of(glyph)) else {
            return;
        };
        let original = points.to_vec();
        let mut deltas = vec![Delta::default(); points.len()];
        let mut is_pending = false;
        for tuple in tuples {
            let scalar = tuple.scalar(coordinates);
            if scalar == 0.0 {
                continue;
            }
            let Some(found) = tuple.deltas(points.len()) else {
                return;
            };
            if !tuple.is_for_all() {
                if is_pending {
                    move_all(points, &deltas);
                }
                deltas.fill(Delta::default());
            }
            add(&mut deltas, found, scalar);
            if !tuple.is_for_all() {
                infer(&original, &mut deltas);
            }
            is_pending = true;
        }
        if is_pending {
            move_all(points, &deltas);
        }
    }
}

fn move_all(points: &mut [OutlinePoint], deltas: &[Delta]) {
    for (point, delta) in points.iter_mut().zip(deltas) {
        point.at = point.at.plus(delta.by);
    }
}

fn add(deltas: &mut [Delta], found: Vec<(usize, Point)>, scalar: f32) {
    for (place, by) in found {
        if let Some(delta) = deltas.get_mut(place) {
            delta.by = delta.by.plus(Point { x: by.x * scalar, y: by.y * scalar });
            delta.is_said = true;
        }
    }
}

impl Tuple<'_> {
    /// The points that it moves, and by how much, of an outline with so many; `None` where they are broken.
    fn deltas(&self, count: usize) -> Option<Vec<(usize, Point)>> {
        let points = if self.is_for_all() { (0..count).collect() } else { self.points.clone() };
        let mut rest = Reader(self.deltas);
        let x = packed_deltas(&mut rest, points.len())?;
        let y = packed_deltas(&mut rest, points.len())?;
        Some(points.into_iter().zip(x.into_iter().zip(y).map(|(x, y)| Point { x, y })).collect())
    }
}

const ARE_ZERO: u8 = 0x80;
const ARE_WORDS: u8 = 0x40;

/// So many deltas (OpenType specification, "OpenType Font Variations Common Table Formats", "Packed deltas").
fn packed_deltas(rest: &mut Reader, count: usize) -> Option<Vec<f32>> {
    let mut deltas = Vec::with_capacity(count);
    while deltas.len() < count {
        let control = rest.u8()?;
        let run = (usize::from(control & 0x3F) + 1).min(count - deltas.len());
        for _ in 0..run {
            deltas.push(match control & (ARE_ZERO | ARE_WORDS) {
                ARE_ZERO => 0.0,
                ARE_WORDS => rest.i16()?.into(),
                0 => rest.i8()?.into(),
                _ => rest.i32()? as f32,
            });
        }
    }
    Some(deltas)
}
