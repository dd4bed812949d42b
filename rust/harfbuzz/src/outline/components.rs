//! The glyphs that an outline is put together of (OpenType specification, "glyf - Glyph Data", "Composite Glyph Description").

use crate::outline::Point;
use crate::outline::reader::Reader;

const ARGUMENTS_ARE_WORDS: u16 = 0x0001;
const ARGUMENTS_ARE_OFFSETS: u16 = 0x0002;
const HAS_SCALE: u16 = 0x0008;
const HAS_MORE: u16 = 0x0020;
const HAS_TWO_SCALES: u16 = 0x0040;
const HAS_MATRIX: u16 = 0x0080;
const USE_MY_METRICS: u16 = 0x0200;
const SCALED_OFFSET: u16 = 0x0800;
const UNSCALED_OFFSET: u16 = 0x1000;
const IS_24_BITS: u16 = 0x2000;

pub struct Component {
    flags: u16,
    pub glyph: u32,
    pub offset: Point,
    /// A point of the glyph so far, and the point of the component that is put on it.
    pub anchors: Option<(usize, usize)>,
    /// xx, yx, xy, yy.
    matrix: [f32; 4],
}

impl Component {
    pub fn gives_metrics(&self) -> bool {
        self.flags & USE_MY_METRICS != 0
    }

    /// A point of the component, where it belongs by an offset.
    pub fn placed(&self, point: Point, offset: Point) -> Point {
        if self.flags & (SCALED_OFFSET | UNSCALED_OFFSET) == SCALED_OFFSET {
            self.turned(point.plus(offset))
        } else {
            self.turned(point).plus(offset)
        }
    }

    fn turned(&self, point: Point) -> Point {
        let [xx, yx, xy, yy] = self.matrix;
        if self.matrix == [1.0, 0.0, 0.0, 1.0] {
            return point;
        }
        Point { x: point.x * xx + point.y * xy, y: point.x * yx + point.y * yy }
    }
}

/// The components of an outline, up to one that is cut short.
pub fn components_of(outline: &[u8]) -> Vec<Component> {
    let mut rest = Reader(outline.get(10..).unwrap_or(&[]));
    let mut found = Vec::new();
    while let Some(component) = next(&mut rest) {
        let has_more = component.flags & HAS_MORE != 0;
        found.push(component);
        if !has_more {
            break;
        }
    }
    found
}

fn next(rest: &mut Reader) -> Option<Component> {
    let flags = rest.u16()?;
    let glyph = rest.number(if flags & IS_24_BITS == 0 { 2 } else { 3 })?;
    let mut arguments = Reader(rest.take(if flags & ARGUMENTS_ARE_WORDS == 0 { 2 } else { 4 })?);
    let matrix = matrix(flags, rest)?;
    let (offset, anchors) = if flags & ARGUMENTS_ARE_OFFSETS != 0 {
        let mut number =
            || if flags & ARGUMENTS_ARE_WORDS == 0 { arguments.i8().map(f32::from) } else { arguments.i16().map(f32::from) };
        (Point { x: number()?, y: number()? }, None)
    } else {
        let size = if flags & ARGUMENTS_ARE_WORDS == 0 { 1 } else { 2 };
        (Point::default(), Some((arguments.number(size)? as usize, arguments.number(size)? as usize)))
    };
    Some(Component { flags, glyph, offset, anchors, matrix })
}

fn matrix(flags: u16, rest: &mut Reader) -> Option<[f32; 4]> {
    let mut number = || Some(f32::from(rest.i16()?) / 16384.0);
    Some(if flags & HAS_SCALE != 0 {
        let both = number()?;
        [both, 0.0, 0.0, both]
    } else if flags & HAS_TWO_SCALES != 0 {
        [number()?, 0.0, 0.0, number()?]
    } else if flags & HAS_MATRIX != 0 {
        [number()?, number()?, number()?, number()?]
    } else {
        [1.0, 0.0, 0.0, 1.0]
    })
}
