//! `hb-style.h`: what kind of font a font is.

use crate::font::hb_font_t;
use crate::ot::layout::hb_ot_layout_get_size_params;
use crate::ot::var::Axes;
use crate::sfnt::{at_32, tail, u16_at, u32_at};
use crate::types::{hb_tag_t, tag};
use std::f32::consts::PI;
use std::ptr::{from_ref, null_mut};

fn ratio(angle: f32) -> f32 {
    (angle * -PI / 180.0).tan()
}

fn angle(ratio: f32) -> f32 {
    ratio.atan() * -180.0 / PI
}

/// A number in 65536ths.
fn fixed(table: &[u8], at: usize) -> f32 {
    u32_at(table, at).cast_signed() as f32 / 65536.0
}

/// A value of the table `STAT` (OpenType specification, "STAT - Style Attributes Table").
fn attribute(table: &[u8], wanted: hb_tag_t) -> Option<f32> {
    let size = usize::from(u16_at(table, 4));
    let axes = at_32(table, 8);
    let axis = (0..usize::from(u16_at(table, 6))).find(|place| size > 0 && u32_at(axes, size * place) == wanted)?;
    let offsets = at_32(table, 14);
    let mut values = (0..usize::from(u16_at(table, 12))).map(|place| tail(offsets, u16_at(offsets, 2 * place).into()));
    values.find_map(|value| match u16_at(value, 0) {
        1..=3 if usize::from(u16_at(value, 2)) == axis => Some(fixed(value, 8)),
        4 => {
            let mut records = tail(value, 8).chunks_exact(6).take(usize::from(u16_at(value, 2)));
            let first = records.next().filter(|record| usize::from(u16_at(record, 0)) == axis)?;
            Some(fixed(first, 2))
        }
        _ => None,
    })
}

/// The widths of `OS/2`, in hundredths of the normal one.
const WIDTHS: [f32; 9] = [50.0, 62.5, 75.0, 87.5, 100.0, 112.5, 125.0, 150.0, 200.0];

/// What the tables `OS/2`, `head` and `post` say.
fn plain(font: &hb_font_t, wanted: hb_tag_t) -> f32 {
    let face = font.face();
    let (os2, head) = (face.table(b"OS/2"), face.table(b"head"));
    let style = u16_at(head, 44);
    match &wanted.to_be_bytes() {
        b"ital" => f32::from(u8::from(u16_at(os2, 62) & 1 != 0 || style & 2 != 0)),
        b"opsz" => {
            let (lower, upper) = (u16_at(os2, 96), u16_at(os2, 98));
            if u16_at(os2, 0) >= 5 && lower < upper {
                return f32::from(lower) / 20.0 / 2.0 + f32::from(upper) / 20.0 / 2.0;
            }
            let mut design = 0;
            let none = null_mut();
            // SAFETY: a face that is alive, and a place for the size.
            let found =
                unsafe { hb_ot_layout_get_size_params(from_ref(face).cast_mut(), &raw mut design, none, none, none, none) };
            if found != 0 { design as f32 / 10.0 } else { 12.0 }
        }
        b"slnt" => {
            let own = fixed(face.table(b"post"), 4);
            if font.slant() == 0.0 { own } else { angle(font.slant() + ratio(own)) }
        }
        b"wdth" if !os2.is_empty() => WIDTHS.get(usize::from(u16_at(os2, 6)).wrapping_sub(1)).copied().unwrap_or(100.0),
        b"wdth" if style & 32 != 0 => 75.0,
        b"wdth" if style & 64 != 0 => 125.0,
        b"wdth" => 100.0,
        b"wght" if !os2.is_empty() => u16_at(os2, 4).into(),
        b"wght" => {
            if style & 1 != 0 {
                700.0
            } else {
                400.0
            }
        }
        _ => 0.0,
    }
}

fn value(font: &hb_font_t, wanted: hb_tag_t) -> f32 {
    if wanted == tag(b"Slnt") {
        return ratio(value(font, tag(b"slnt")));
    }
    let axes = Axes::of(font.face());
    if let Some((place, axis)) = axes.iter().enumerate().find(|(_, axis)| axis.tag == wanted) {
        return font.design().get(place).copied().unwrap_or(axis.default);
    }
    if wanted == tag(b"opsz") && font.points() != 0.0 {
        return font.points();
    }
    attribute(font.face().table(b"STAT"), wanted).unwrap_or_else(|| plain(font, wanted))
}

#[unsafe(no_mangle)]
pub unsafe extern "C" fn hb_style_get_value(font: *mut hb_font_t, wanted: hb_tag_t) -> f32 {
    // SAFETY: HarfBuzz's terms: a font that is alive.
    value(unsafe { &*font }, wanted)
}
