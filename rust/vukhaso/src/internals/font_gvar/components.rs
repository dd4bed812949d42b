// Written by tools/plain_rust from crates/font_gvar. Do not edit.

//! The glyphs that an outline is put together of (OpenType specification, "glyf - Glyph Data", "Composite Glyph Description").

use crate::common::GlyphId;
use crate::font_gvar::flags::has_flag;
use crate::font_gvar::points::Point;
use crate::font_tables::bytes::{i16_at, tail, u8_at, u16_at, u24_at};
use crate::font_variations::rounding::float;
use crate::numbers::ToSigned;
use crate::outline_tables::glyf::HEADER_SIZE;

/// The components of an outline, which are read one after the other.
#[derive(Clone, Copy, Debug)]
pub(crate) struct Components<'a> {
    rest: &'a [u8],
    has_more: bool,
}

/// A component of an outline.
#[derive(Clone, Copy, Debug)]
pub(crate) struct Component {
    /// The glyph; `None` where its number is past 16 bits.
    pub glyph: Option<GlyphId>,
    /// How it is put where it belongs.
    flags: u16,
    /// How far it is moved, unless it is moved so that two points meet.
    pub offset: Point,
    /// The point of those before it, and the point of its own, which meet, if it is moved so.
    pub anchors: Option<(u32, u32)>,
    /// How it is turned and stretched.
    pub matrix: Matrix,
}

/// How points are turned and stretched.
#[derive(Clone, Copy, Debug)]
pub(crate) struct Matrix {
    /// How far to the right a unit to the right goes.
    pub xx: f32,
    /// How far up a unit to the right goes.
    pub yx: f32,
    /// How far to the right a unit upwards goes.
    pub xy: f32,
    /// How far up a unit upwards goes.
    pub yy: f32,
}

const ARGUMENTS_ARE_WORDS: u16 = 0x0001;

const ARGUMENTS_ARE_OFFSETS: u16 = 0x0002;

const HAS_SCALE: u16 = 0x0008;

const HAS_MORE: u16 = 0x0020;

const HAS_TWO_SCALES: u16 = 0x0040;

const HAS_MATRIX: u16 = 0x0080;

const USE_MY_METRICS: u16 = 0x0200;

const SCALED_OFFSET: u16 = 0x0800;

const UNSCALED_OFFSET: u16 = 0x1000;

const IS_24_BITS: u16 = 0x2000;

impl Component {
    /// Whether the glyph has the phantom points of this component.
    pub(crate) fn gives_metrics(&self) -> bool {
        has_flag(self.flags, USE_MY_METRICS)
    }

    /// Whether it is moved before it is turned and stretched, and not behind that.
    pub(crate) fn is_moved_first(&self) -> bool {
        has_flag(self.flags, SCALED_OFFSET) && !has_flag(self.flags, UNSCALED_OFFSET)
    }
}

impl Matrix {
    /// A matrix that does not turn, but stretches so much to the right and so much upwards.
    fn stretching(xx: f32, yy: f32) -> Self {
        Matrix {
            xx,
            yx: 0.0,
            xy: 0.0,
            yy,
        }
    }

    /// Where it puts a point.
    pub(crate) fn put(&self, point: Point) -> Point {
        Point {
            x: point.x * self.xx + point.y * self.xy,
            y: point.x * self.yx + point.y * self.yy,
        }
    }
}

impl<'a> Components<'a> {
    /// The components of an outline.
    pub(crate) fn new(outline: &'a [u8]) -> Self {
        Components {
            rest: tail(outline, HEADER_SIZE),
            has_more: true,
        }
    }

    /// How many there are.
    pub(crate) fn count(mut self) -> u32 {
        let mut count = 0u32;
        for _ in self.rest {
            if self.next().is_none() {
                break;
            }
            count = count.saturating_add(1);
        }
        count
    }

    /// The next component; `None` where there is none, or it is cut short.
    pub(crate) fn next(&mut self) -> Option<Component> {
        if !self.has_more {
            return None;
        }
        let flags = u16_at(self.rest, 0)?;
        let size = component_size(flags);
        if self.rest.len() < size {
            return None;
        }
        let component = component_at(self.rest, flags);
        self.has_more = has_flag(flags, HAS_MORE);
        self.rest = tail(self.rest, size);
        Some(component)
    }
}

/// How many bytes the number of a component's glyph has.
fn glyph_size(flags: u16) -> usize {
    if has_flag(flags, IS_24_BITS) { 3 } else { 2 }
}

/// How many bytes the two arguments of a component have.
fn arguments_size(flags: u16) -> usize {
    if has_flag(flags, ARGUMENTS_ARE_WORDS) {
        4
    } else {
        2
    }
}

/// How many bytes a component has.
fn component_size(flags: u16) -> usize {
    2 + glyph_size(flags) + arguments_size(flags) + matrix_size(flags)
}

/// How many bytes say how a component is turned and stretched.
fn matrix_size(flags: u16) -> usize {
    if has_flag(flags, HAS_SCALE) {
        2
    } else if has_flag(flags, HAS_TWO_SCALES) {
        4
    } else if has_flag(flags, HAS_MATRIX) {
        8
    } else {
        0
    }
}

/// The component at the front of these bytes.
fn component_at(bytes: &[u8], flags: u16) -> Component {
    let number = if has_flag(flags, IS_24_BITS) {
        u24_at(bytes, 2)
    } else {
        u16_at(bytes, 2).map(u32::from)
    };
    let arguments = tail(bytes, 2 + glyph_size(flags));
    let are_offsets = has_flag(flags, ARGUMENTS_ARE_OFFSETS);
    Component {
        glyph: glyph_of(number.unwrap_or(0)),
        flags,
        offset: if are_offsets {
            offset(arguments, flags)
        } else {
            Point { x: 0.0, y: 0.0 }
        },
        anchors: if are_offsets {
            None
        } else {
            Some((argument(arguments, flags, 0), argument(arguments, flags, 1)))
        },
        matrix: matrix_at(tail(arguments, arguments_size(flags)), flags),
    }
}

/// The glyph of a number.
fn glyph_of(number: u32) -> Option<GlyphId> {
    if number < 65536 {
        Some(GlyphId(number as u16))
    } else {
        None
    }
}

/// How far a component is moved.
fn offset(arguments: &[u8], flags: u16) -> Point {
    Point {
        x: float(signed_argument(arguments, flags, 0)),
        y: float(signed_argument(arguments, flags, 1)),
    }
}

/// The first or the second argument, as a signed number.
fn signed_argument(arguments: &[u8], flags: u16, place: u8) -> i32 {
    let place = usize::from(place);
    if has_flag(flags, ARGUMENTS_ARE_WORDS) {
        i32::from(i16_at(arguments, 2 * place).unwrap_or(0))
    } else {
        i32::from(u8_at(arguments, place).unwrap_or(0).to_signed())
    }
}

/// The first or the second argument, as the number of a point.
fn argument(arguments: &[u8], flags: u16, place: u8) -> u32 {
    let place = usize::from(place);
    if has_flag(flags, ARGUMENTS_ARE_WORDS) {
        u32::from(u16_at(arguments, 2 * place).unwrap_or(0))
    } else {
        u32::from(u8_at(arguments, place).unwrap_or(0))
    }
}

/// How a component is turned and stretched.
fn matrix_at(numbers: &[u8], flags: u16) -> Matrix {
    if has_flag(flags, HAS_SCALE) {
        let scale = fraction(numbers, 0);
        Matrix::stretching(scale, scale)
    } else if has_flag(flags, HAS_TWO_SCALES) {
        Matrix::stretching(fraction(numbers, 0), fraction(numbers, 2))
    } else if has_flag(flags, HAS_MATRIX) {
        Matrix {
            xx: fraction(numbers, 0),
            yx: fraction(numbers, 2),
            xy: fraction(numbers, 4),
            yy: fraction(numbers, 6),
        }
    } else {
        Matrix::stretching(1.0, 1.0)
    }
}

/// The number of 16384ths at a place.
fn fraction(numbers: &[u8], at: usize) -> f32 {
    float(i32::from(i16_at(numbers, at).unwrap_or(0))) / 16384.0
}
