// Written by tools/plain_rust from crates/ot_positioning. Do not edit.

//! Marks in a font that does not position them: each is put over or under its base by the bounds of both and by the combining
//! class of the mark (HarfBuzz's `_hb_ot_shape_fallback_mark_position`; Unicode Standard, "Combining Classes").

use crate::buffer::{GlyphPosition, hb_buffer_t, hb_glyph_info_t};
use crate::common::{Direction, GlyphId, Script};
use crate::font_face::Face;
use crate::font_functions::FontFunctions;
use crate::glyph::GlyphExtents;
use crate::memory::AllocError;
use crate::ot_attachments::flags::mark_break;
use crate::ot_layout::ligature_parts::{component_count, ligature_id};
use crate::ot_positioning::mark_placing::{Line, Marks};
use crate::ot_positions::{set_position, zero_mark_width};
use crate::script_items::glyph_info::is_nonspacing_mark;
use crate::script_items::item::{is_unicode_mark, modified_combining_class};

/// Positions the marks behind each base. `direction` is the way in which the line was said to run. The
/// advances of marks are taken; where the font has no bounds of a base, its marks are moved back by
/// theirs if `adjusts` says so.
///
/// # Requires
///
/// Positions, and that no output is open.
///
/// - `closed: buffer.old.have_output ≡ false`
/// - `placed: IsSome buffer.old.positions`
///
/// # Errors
///
/// `Err(AllocError)` where memory runs out for the points of an outline that varies.
///
/// # Proved
///
/// ```text
/// ensures is { IfOk result (λ _. AreMarksPlaced (F.may_advance font.now)
///     (placing.line_of direction (int_div face.now.scale.y (pos 16)) buffer.old) adjusts buffer.old buffer.new) }
/// ensures closed { buffer.new.have_output ≡ false }
/// ensures placed { IsSome buffer.new.positions }
/// ensures keeps { KeepsClusters buffer.old buffer.new }
/// ```
#[inline]
pub fn position_marks<F: FontFunctions>(
    buffer: &mut hb_buffer_t,
    face: &Face,
    font: &F,
    direction: Direction,
    adjusts: bool,
) -> Result<(), AllocError> {
    debug_assert!(!buffer.have_output());
    debug_assert!(buffer.have_positions());
    let line = line_of(buffer, direction, face);
    mark_baseless(buffer);
    place_all(buffer, font, line, adjusts)
}

/// Positions the marks behind each base, one base after the other.
///
/// # Requires
///
/// - `closed: buffer.old.have_output ≡ false`
/// - `placed: IsSome buffer.old.positions`
fn place_all<F: FontFunctions>(
    buffer: &mut hb_buffer_t,
    font: &F,
    line: Line,
    adjusts: bool,
) -> Result<(), AllocError> {
    debug_assert!(!buffer.have_output());
    debug_assert!(buffer.have_positions());
    for place in 0..buffer.len() {
        place_behind(buffer, font, line, place, adjusts)?;
    }
    Ok(())
}

/// Positions the marks behind the item at a place, if it is a base that has some: the text is not to be
/// broken between them.
///
/// # Requires
///
/// - `closed: buffer.old.have_output ≡ false`
/// - `placed: IsSome buffer.old.positions`
/// - `within: place < length buffer.old.input`
fn place_behind<F: FontFunctions>(
    buffer: &mut hb_buffer_t,
    font: &F,
    line: Line,
    place: usize,
    adjusts: bool,
) -> Result<(), AllocError> {
    debug_assert!(!buffer.have_output());
    debug_assert!(buffer.have_positions());
    debug_assert!(place < buffer.info().len());
    let end = marks_end(buffer.info(), place);
    let has_none = end - place == 1;
    if has_none {
        return Ok(());
    }
    keep_together(buffer, place, end);
    place_around(buffer, font, line, (place, end), adjusts)
}

/// Says that the text is not to be broken between these places.
///
/// # Requires
///
/// - `closed: buffer.old.have_output ≡ false`
/// - `placed: IsSome buffer.old.positions`
fn keep_together(buffer: &mut hb_buffer_t, start: usize, end: usize) {
    debug_assert!(!buffer.have_output());
    debug_assert!(buffer.have_positions());
    debug_assert!(buffer.out_len() == 0);
    mark_break(buffer, start, end);
    debug_assert!(buffer.out_len() == 0);
}

/// Where the marks end that stand behind the item at a place; behind a mark there are none of its own.
///
/// # Requires
///
/// - `place < length infos.now`
fn marks_end(infos: &[hb_glyph_info_t], place: usize) -> usize {
    debug_assert!(place < infos.len());
    if is_unicode_mark(&info_at(infos, place)) {
        place + 1
    } else {
        place + 1 + first_marks(&infos[place + 1..])
    }
}

/// Marks those that begin the text, and have no base, as unsafe to concatenate: behind another text
/// they might have one.
///
/// # Requires
///
/// - `closed: buffer.old.have_output ≡ false`
/// - `placed: IsSome buffer.old.positions`
fn mark_baseless(buffer: &mut hb_buffer_t) {
    debug_assert!(!buffer.have_output());
    debug_assert!(buffer.have_positions());
    let end = first_marks(buffer.info());
    buffer.unsafe_to_concat(Some(0), Some(end));
}

/// How many marks begin a text.
fn first_marks(infos: &[hb_glyph_info_t]) -> usize {
    infos
        .iter()
        .take_while(|info| is_unicode_mark(info))
        .count()
}

/// How a line runs.
fn line_of(buffer: &hb_buffer_t, direction: Direction, face: &Face) -> Line {
    Line {
        direction: buffer.direction,
        components_run_right: runs_right(horizontal_direction(direction, buffer.script)),
        gap: face.scale.y / 16,
    }
}

/// The way in which the components of a ligature stand: in vertical lines that of the script, from left
/// to right where the text has none.
fn horizontal_direction(direction: Direction, script: Option<Script>) -> Option<Direction> {
    if direction.is_horizontal() {
        return Some(direction);
    }
    match script {
        Some(script) => Direction::from_script(script),
        None => Some(Direction::LeftToRight),
    }
}

/// Whether this way is from left to right.
fn runs_right(direction: Option<Direction>) -> bool {
    match direction {
        Some(direction) => is_left_to_right(direction),
        None => false,
    }
}

/// Whether a direction is from left to right.
fn is_left_to_right(direction: Direction) -> bool {
    matches!(direction, Direction::LeftToRight)
}

/// Positions the marks of a base, which stand behind it up to the end of `range`.
///
/// # Requires
///
/// - `closed: buffer.old.have_output ≡ false`
/// - `placed: IsSome buffer.old.positions`
/// - `order: range.0 < range.1`
fn place_around<F: FontFunctions>(
    buffer: &mut hb_buffer_t,
    font: &F,
    line: Line,
    range: (usize, usize),
    adjusts: bool,
) -> Result<(), AllocError> {
    debug_assert!(!buffer.have_output());
    debug_assert!(buffer.have_positions());
    let mut marks = marks_of(buffer, font, line, range.0)?;
    for place in range.0 + 1..range.1 {
        place_at(buffer, font, &mut marks, place, adjusts)?;
    }
    Ok(())
}

/// The item at a place as a base, with no marks yet; `None` where the font has no bounds of it.
///
/// # Requires
///
/// - `IsSome buffer.now.positions`
fn marks_of<F: FontFunctions>(
    buffer: &hb_buffer_t,
    font: &F,
    line: Line,
    place: usize,
) -> Result<Option<Marks>, AllocError> {
    debug_assert!(buffer.have_positions());
    let info = info_at(buffer.info(), place);
    let position = position_at(buffer.pos(), place);
    marks_around(font, line, &info, &position)
}

/// The base of an item at a position, with no marks yet.
fn marks_around<F: FontFunctions>(
    font: &F,
    line: Line,
    info: &hb_glyph_info_t,
    position: &GlyphPosition,
) -> Result<Option<Marks>, AllocError> {
    let Some(glyph) = glyph_of(info) else {
        return Ok(None);
    };
    let Some(bounds) = font.glyph_extents(glyph)? else {
        return Ok(None);
    };
    let base = base_of(font, glyph, bounds, position);
    let parts = (ligature_id(info), component_count(info));
    Ok(Some(Marks::new(line, base, position, parts)))
}

/// Positions the item at a place behind a base.
///
/// # Requires
///
/// - `closed: buffer.old.have_output ≡ false`
/// - `placed: IsSome buffer.old.positions`
fn place_at<F: FontFunctions>(
    buffer: &mut hb_buffer_t,
    font: &F,
    marks: &mut Option<Marks>,
    place: usize,
    adjusts: bool,
) -> Result<(), AllocError> {
    debug_assert!(!buffer.have_output());
    debug_assert!(buffer.have_positions());
    let info = info_at(buffer.info(), place);
    let mut position = position_at(buffer.pos(), place);
    place_one(marks, font, &info, &mut position, adjusts)?;
    set_position(buffer, place, position);
    Ok(())
}

/// The item at a place.
fn info_at(infos: &[hb_glyph_info_t], place: usize) -> hb_glyph_info_t {
    if place < infos.len() {
        infos[place]
    } else {
        hb_glyph_info_t::default()
    }
}

/// The position at a place.
fn position_at(positions: &[GlyphPosition], place: usize) -> GlyphPosition {
    if place < positions.len() {
        positions[place]
    } else {
        GlyphPosition::default()
    }
}

/// Positions an item behind a base; where there is nothing to put marks around, those without width
/// take no room.
fn place_one<F: FontFunctions>(
    marks: &mut Option<Marks>,
    font: &F,
    info: &hb_glyph_info_t,
    position: &mut GlyphPosition,
    adjusts: bool,
) -> Result<(), AllocError> {
    match marks {
        Some(marks) => position_mark(marks, font, info, position),
        None => {
            narrow(info, position, adjusts);
            Ok(())
        }
    }
}

/// Takes the advance of a mark without width.
fn narrow(info: &hb_glyph_info_t, position: &mut GlyphPosition, adjusts: bool) {
    if is_nonspacing_mark(info) {
        zero_mark_width(position, adjusts);
    }
}

/// What marks are put around, by the bounds of the base: it is as wide as its advance, and stands as
/// much higher as it was moved up.
fn base_of<F: FontFunctions>(
    font: &F,
    glyph: GlyphId,
    bounds: GlyphExtents,
    position: &GlyphPosition,
) -> GlyphExtents {
    GlyphExtents {
        x_bearing: 0,
        y_bearing: bounds.y_bearing.wrapping_add(position.y_offset),
        width: font.glyph_h_advance(glyph),
        height: bounds.height,
    }
}

/// The glyph of an item, which has 16 bits.
fn glyph_of(info: &hb_glyph_info_t) -> Option<GlyphId> {
    match u16::try_from(info.glyph_id) {
        Ok(number) => Some(GlyphId(number)),
        Err(_) => None,
    }
}

/// Positions an item behind a base: a mark with a class by that class. The next marks stand behind any
/// other item.
fn position_mark<F: FontFunctions>(
    marks: &mut Marks,
    font: &F,
    info: &hb_glyph_info_t,
    position: &mut GlyphPosition,
) -> Result<(), AllocError> {
    if modified_combining_class(info) == 0 {
        marks.pass(position);
        return Ok(());
    }
    let bounds = bounds_of(font, info)?;
    marks.place(info, bounds, position);
    Ok(())
}

/// The bounds that the font has of an item's glyph.
fn bounds_of<F: FontFunctions>(
    font: &F,
    info: &hb_glyph_info_t,
) -> Result<Option<GlyphExtents>, AllocError> {
    match glyph_of(info) {
        Some(glyph) => font.glyph_extents(glyph),
        None => Ok(None),
    }
}
