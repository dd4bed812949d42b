// Written by tools/plain_rust from crates/line_formats. Do not edit.

//! Glyphs as JSON.

use crate::glyph::{
    GlyphExtents, GlyphNames, GlyphPosition, SerializeFlags, glyph_flag, hb_glyph_info_t,
};
use crate::glyph_text::parts::{Pen, extents_of, name_of};
use crate::line_formats::writing::{write_bytes, write_member, write_number, write_two};
use crate::memory::{AllocError, Vec};

/// The glyphs as objects of JSON, joined by `,`, as HarfBuzz's `hb_buffer_serialize_glyphs` writes them
/// between brackets. The members of an object are, in this order:
///
/// - `"g"`, the name in quotes, in which `"` and `\` have a `\` before them, or `gid` and the number where the font has no name; under
///   `NO_GLYPH_NAMES` the number alone;
/// - `"cl"`, the cluster, except under `NO_CLUSTERS`;
/// - `"dx"` and `"dy"`, the offsets, to which under `NO_ADVANCES` the sums of all earlier advances are added, and except under that `"ax"`
///   and `"ay"`, the advances; under `NO_POSITIONS` none of these;
/// - under `GLYPH_FLAGS` `"fl"`, the glyph flags, unless they are 0;
/// - under `GLYPH_EXTENTS` `"xb"`, `"yb"`, `"w"` and `"h"`, zeros where the font knows no extents.
///
/// # Requires
///
/// As many positions as glyphs.
///
/// - `length positions.now ≡ length infos.now`
///
/// # Errors
///
/// `Err(AllocError)` where memory ran out: then there is no text.
///
/// # Proved
///
/// ```text
/// ensures { IfOk result (λ text. text.items ≡ objects.glyphs_json
///     (record { name = F.name_of font.now; extents = F.extents_of font.now }) flags
///     (zip infos.now positions.now)) }
/// ```
#[inline]
pub fn glyphs_json<F: GlyphNames>(
    font: &F,
    flags: SerializeFlags,
    infos: &[hb_glyph_info_t],
    positions: &[GlyphPosition],
) -> Result<Vec<u8>, AllocError> {
    debug_assert!(positions.len() == infos.len());
    let mut text = Vec::new();
    let mut pen = Pen { x: 0, y: 0 };
    for (i, info) in infos.iter().enumerate() {
        let position = &positions[i];
        write_head(&mut text, font, flags, i, info)?;
        write_position(&mut text, flags, pen, position)?;
        write_tail(&mut text, font, flags, info)?;
        pen = pen.behind(flags, position);
    }
    Ok(text)
}

/// What an object begins with: the name of the glyph, and its cluster.
fn write_head<F: GlyphNames>(
    text: &mut Vec<u8>,
    font: &F,
    flags: SerializeFlags,
    i: usize,
    info: &hb_glyph_info_t,
) -> Result<(), AllocError> {
    write_comma(text, i)?;
    write_name(text, font, flags, info)?;
    write_cluster(text, flags, info)
}

/// The comma before each object except the first.
fn write_comma(text: &mut Vec<u8>, i: usize) -> Result<(), AllocError> {
    if i > 0 {
        text.push(b',')?;
    }
    Ok(())
}

/// The name of a glyph in quotes, or its number alone.
fn write_name<F: GlyphNames>(
    text: &mut Vec<u8>,
    font: &F,
    flags: SerializeFlags,
    info: &hb_glyph_info_t,
) -> Result<(), AllocError> {
    write_bytes(text, b"{\"g\":")?;
    if flags.contains(SerializeFlags::NO_GLYPH_NAMES) {
        write_number(text, info.glyph_id)
    } else {
        write_quoted_name(text, font, info)
    }
}

/// The name of a glyph in quotes.
fn write_quoted_name<F: GlyphNames>(
    text: &mut Vec<u8>,
    font: &F,
    info: &hb_glyph_info_t,
) -> Result<(), AllocError> {
    write_bytes(text, b"\"")?;
    match name_of(font, info) {
        Some(name) => write_escaped(text, name.as_bytes())?,
        None => write_member(text, b"gid", info.glyph_id)?,
    }
    write_bytes(text, b"\"")
}

/// The bytes of a name, `"` and `\` with a `\` before them.
fn write_escaped(text: &mut Vec<u8>, name: &[u8]) -> Result<(), AllocError> {
    for byte in name {
        write_escaped_byte(text, *byte)?;
    }
    Ok(())
}

fn write_escaped_byte(text: &mut Vec<u8>, byte: u8) -> Result<(), AllocError> {
    if byte == b'"' || byte == b'\\' {
        write_bytes(text, &[b'\\', byte])
    } else {
        write_bytes(text, &[byte])
    }
}

fn write_cluster(
    text: &mut Vec<u8>,
    flags: SerializeFlags,
    info: &hb_glyph_info_t,
) -> Result<(), AllocError> {
    if flags.contains(SerializeFlags::NO_CLUSTERS) {
        return Ok(());
    }
    write_member(text, b",\"cl\":", info.cluster)
}

/// The place of a glyph, and its advance.
///
/// # Requires
///
/// - `IsNear pen`
fn write_position(
    text: &mut Vec<u8>,
    flags: SerializeFlags,
    pen: Pen,
    position: &GlyphPosition,
) -> Result<(), AllocError> {
    if flags.contains(SerializeFlags::NO_POSITIONS) {
        return Ok(());
    }
    write_place(text, pen, position)?;
    write_advance(text, flags, position)
}

/// The place of a glyph, from the start of the line or from where it is drawn.
///
/// # Requires
///
/// - `IsNear pen`
fn write_place(text: &mut Vec<u8>, pen: Pen, position: &GlyphPosition) -> Result<(), AllocError> {
    write_point(text, pen.plus_offset(position))
}

fn write_point(text: &mut Vec<u8>, point: Pen) -> Result<(), AllocError> {
    write_two(text, b",\"dx\":", point.x, b",\"dy\":", point.y)
}

fn write_advance(
    text: &mut Vec<u8>,
    flags: SerializeFlags,
    position: &GlyphPosition,
) -> Result<(), AllocError> {
    if flags.contains(SerializeFlags::NO_ADVANCES) {
        return Ok(());
    }
    write_two(
        text,
        b",\"ax\":",
        position.x_advance,
        b",\"ay\":",
        position.y_advance,
    )
}

/// What an object ends with: the flags of the glyph, and its extents.
fn write_tail<F: GlyphNames>(
    text: &mut Vec<u8>,
    font: &F,
    flags: SerializeFlags,
    info: &hb_glyph_info_t,
) -> Result<(), AllocError> {
    write_flags(text, flags, info)?;
    write_extents(text, font, flags, info)?;
    write_bytes(text, b"}")
}

fn write_flags(
    text: &mut Vec<u8>,
    flags: SerializeFlags,
    info: &hb_glyph_info_t,
) -> Result<(), AllocError> {
    let defined = info.mask & glyph_flag::DEFINED;
    if !flags.contains(SerializeFlags::GLYPH_FLAGS) || defined == 0 {
        return Ok(());
    }
    write_member(text, b",\"fl\":", defined)
}

fn write_extents<F: GlyphNames>(
    text: &mut Vec<u8>,
    font: &F,
    flags: SerializeFlags,
    info: &hb_glyph_info_t,
) -> Result<(), AllocError> {
    if !flags.contains(SerializeFlags::GLYPH_EXTENTS) {
        return Ok(());
    }
    write_box(text, extents_of(font, info))
}

fn write_box(text: &mut Vec<u8>, extents: GlyphExtents) -> Result<(), AllocError> {
    write_two(
        text,
        b",\"xb\":",
        extents.x_bearing,
        b",\"yb\":",
        extents.y_bearing,
    )?;
    write_two(text, b",\"w\":", extents.width, b",\"h\":", extents.height)
}
