//! Outlines of the tables `glyf` and `loca` (OpenType specification, `glyf` and `loca`), moved by `gvar`.

use crate::face::hb_face_t;
use crate::outline::components::{Component, components_of};
use crate::outline::contours::draw_contours;
use crate::outline::reader::Reader;
use crate::outline::variations::Variations;
use crate::outline::{Pen, Point};
use crate::sfnt::{i16_at, u16_at, u32_at};
use vukhaso::GlyphId;
use vukhaso::internals::font_tables::metrics::Metrics;

/// How deep glyphs may be put together, how many of them one may have, and how many points, as HarfBuzz allows.
const DEEPEST: u32 = 64;
const MOST_GLYPHS: u32 = 2048;
const MOST_POINTS: usize = 200_000;

const PHANTOMS: usize = 4;

/// A point of an outline.
#[derive(Clone, Copy, Default)]
pub struct OutlinePoint {
    pub at: Point,
    pub is_on_curve: bool,
    pub is_cubic: bool,
    /// Whether a contour ends with it.
    pub is_end: bool,
}

struct Source<'a> {
    glyf: &'a [u8],
    loca: &'a [u8],
    has_long_offsets: bool,
    glyph_count: u32,
    variations: Option<Variations<'a>>,
    horizontal: Metrics<'a>,
    vertical: Metrics<'a>,
    coordinates: &'a [i32],
}

/// Where the reader stands among glyphs that are put together.
struct Visit {
    open: Vec<u32>,
    steps: u32,
}

/// Draws the outline of a glyph, whose origin stands at 0; whether it has one that is whole.
pub fn draw(face: &hb_face_t, glyph: u16, coordinates: &[i32], pen: &mut Pen) -> bool {
    let Some(source) = Source::new(face, coordinates) else {
        return false;
    };
    let mut points = Vec::new();
    let mut visit = Visit { open: Vec::new(), steps: MOST_GLYPHS };
    if source.push_glyph(glyph.into(), 0, &mut visit, &mut points).is_none() {
        return false;
    }
    let behind = points.len() - PHANTOMS;
    let left = points[behind].at.x;
    for point in &mut points {
        point.at.x -= left;
        point.at = pen.scaled(point.at);
    }
    draw_contours(&points[..behind], pen);
    true
}

impl<'a> Source<'a> {
    fn new(face: &'a hb_face_t, coordinates: &'a [i32]) -> Option<Self> {
        let head = face.table(b"head");
        let glyph_count = face.glyph_count();
        let (format, data_format) = (u16_at(head, 50), u16_at(head, 52));
        if format > 1 || data_format > 1 {
            return None;
        }
        let loca = face.table(b"loca");
        let in_loca = (loca.len() / if format == 0 { 2 } else { 4 }).saturating_sub(1) as u32;
        let metrics = |header: &[u8; 4], table: &[u8; 4], advance: u32| {
            Metrics::new(face.table(table), u16_at(face.table(header), 34), glyph_count as u16, advance as u16)
        };
        Some(Source {
            glyf: face.table(b"glyf"),
            loca,
            has_long_offsets: format == 1,
            glyph_count: glyph_count.min(in_loca),
            variations: Variations::new(face.table(b"gvar"), glyph_count),
            horizontal: metrics(b"hhea", b"hmtx", face.units_per_em() / 2),
            vertical: metrics(b"vhea", b"vmtx", face.units_per_em()),
            coordinates,
        })
    }

    /// The outline of a glyph, or no bytes where it has none; `None` where the font has no such glyph.
    fn outline(&self, glyph: u32) -> Option<&'a [u8]> {
        if glyph >= self.glyph_count {
            return None;
        }
        let place = |number: usize| {
            if self.has_long_offsets {
                u32_at(self.loca, 4 * number) as usize
            } else {
                2 * usize::from(u16_at(self.loca, 2 * number))
            }
        };
        let outline = self.glyf.get(place(glyph as usize)..place(glyph as usize + 1)).unwrap_or(&[]);
        Some(if outline.len() < 10 { &[] } else { outline })
    }

    /// The points by which the advances and origins of a glyph vary: left, right, top, bottom.
    fn phantoms(&self, glyph: u32, outline: &[u8]) -> [OutlinePoint; PHANTOMS] {
        let glyph = GlyphId(glyph as u16);
        let left = self.horizontal.side_bearing(glyph).map_or(0, |bearing| i32::from(i16_at(outline, 2)) - i32::from(bearing));
        let top = i32::from(i16_at(outline, 8)) + i32::from(self.vertical.side_bearing(glyph).unwrap_or(0));
        let point = |x: i32, y: i32| OutlinePoint { at: Point { x: x as f32, y: y as f32 }, ..Default::default() };
        [
            point(left, 0),
            point(left + i32::from(self.horizontal.advance(glyph)), 0),
            point(0, top),
            point(0, top - i32::from(self.vertical.advance(glyph))),
        ]
    }

    fn vary(&self, glyph: u32, points: &mut [OutlinePoint]) {
        if let Some(variations) = self.variations.as_ref().filter(|_| !self.coordinates.is_empty()) {
            variations.vary(glyph, self.coordinates, points);
        }
    }

    /// Adds the points of a glyph, and behind them its phantom points; `None` where an outline is broken.
    fn push_glyph(&self, glyph: u32, depth: u32, visit: &mut Visit, points: &mut Vec<OutlinePoint>) -> Option<()> {
        if depth > DEEPEST {
            return None;
        }
        visit.steps = visit.steps.checked_sub(1)?;
        let outline = self.outline(glyph)?;
        let contours = i16_at(outline, 0);
        if contours < 0 {
            return self.push_composite(glyph, depth, visit, points);
        }
        let start = points.len();
        if contours > 0 {
            push_simple(outline, contours.unsigned_abs().into(), points)?;
        }
        points.extend(self.phantoms(glyph, outline));
        self.vary(glyph, &mut points[start..]);
        Some(())
    }

    /// The same for a glyph that is put together of others.
    fn push_composite(&self, glyph: u32, depth: u32, visit: &mut Visit, points: &mut Vec<OutlinePoint>) -> Option<()> {
        let outline = self.outline(glyph)?;
        let components = components_of(outline);
        let mut offsets: Vec<OutlinePoint> = components
            .iter()
            .map(|component| OutlinePoint { at: component.offset, is_end: true, ..Default::default() })
            .collect();
        offsets.extend(self.phantoms(glyph, outline));
        self.vary(glyph, &mut offsets);
        let mut phantoms = offsets.split_off(components.len());
        let mut offsets = offsets.into_iter();
        for component in components {
            if visit.open.contains(&component.glyph) {
                // A glyph that is put together of itself is passed over, and the next one takes its offset.
                continue;
            }
            let start = points.len();
            visit.open.push(component.glyph);
            self.push_glyph(component.glyph, depth + 1, visit, points)?;
            visit.open.pop();
            if component.gives_metrics() {
                phantoms = points[points.len() - PHANTOMS..].to_vec();
            }
            place_component(&component, offsets.next()?.at, start, points);
            points.truncate(points.len() - PHANTOMS);
            if points.len() > MOST_POINTS {
                return None;
            }
        }
        points.extend(phantoms);
        Some(())
    }
}

/// Puts the points from a place on, which are a component's, where they belong.
fn place_component(component: &Component, offset: Point, start: usize, points: &mut [OutlinePoint]) {
    for point in &mut points[start..] {
        point.at = component.placed(point.at, offset);
    }
    if let Some((target, own)) = component.anchors
        && let (Some(target), Some(own)) = (points.get(target), points.get(start + own))
    {
        let by = target.at.minus(own.at);
        for point in &mut points[start..] {
            point.at = point.at.plus(by);
        }
    }
}

const ON_CURVE: u8 = 0x01;
const X_IS_SHORT: u8 = 0x02;
const Y_IS_SHORT: u8 = 0x04;
const REPEATS: u8 = 0x08;
const X_IS_SAME: u8 = 0x10;
const Y_IS_SAME: u8 = 0x20;
const CUBIC: u8 = 0x80;

/// Adds the points of an outline of so many contours (OpenType specification, "Simple Glyph Description").
fn push_simple(outline: &[u8], contours: usize, points: &mut Vec<OutlinePoint>) -> Option<()> {
    let mut rest = Reader(outline.get(10..)?);
    let ends: Vec<usize> = (0..contours).map(|_| rest.u16().map(usize::from)).collect::<Option<_>>()?;
    let instructions = rest.u16()?.into();
    rest.take(instructions)?;
    if rest.is_empty() {
        return None;
    }
    let start = points.len();
    let flags = flags(&mut rest, ends.last()? + 1)?;
    let x = coordinates(&mut rest, &flags, X_IS_SHORT, X_IS_SAME)?;
    let y = coordinates(&mut rest, &flags, Y_IS_SHORT, Y_IS_SAME)?;
    points.extend(flags.iter().zip(x.into_iter().zip(y)).map(|(flag, (x, y))| OutlinePoint {
        at: Point { x, y },
        is_on_curve: flag & ON_CURVE != 0,
        is_cubic: flag & (ON_CURVE | CUBIC) == CUBIC,
        is_end: false,
    }));
    for end in ends {
        if let Some(point) = points[start..].get_mut(end) {
            point.is_end = true;
        }
    }
    Some(())
}

fn flags(rest: &mut Reader, count: usize) -> Option<Vec<u8>> {
    let mut flags = Vec::with_capacity(count);
    while flags.len() < count {
        let flag = rest.u8()?;
        let repeats = if flag & REPEATS != 0 { rest.u8()?.into() } else { 0 };
        let length = (flags.len() + 1 + repeats).min(count);
        flags.resize(length, flag);
    }
    Some(flags)
}

/// The coordinates of all points along an axis, each of which is told by how far it is from the one before.
fn coordinates(rest: &mut Reader, flags: &[u8], is_short: u8, is_same: u8) -> Option<Vec<f32>> {
    let mut at = 0;
    flags
        .iter()
        .map(|flag| {
            at += match (flag & is_short != 0, flag & is_same != 0) {
                (true, true) => i32::from(rest.u8()?),
                (true, false) => -i32::from(rest.u8()?),
                (false, true) => 0,
                (false, false) => i32::from(rest.i16()?),
            };
            Some(at as f32)
        })
        .collect()
}
