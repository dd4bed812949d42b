// Written by tools/plain_rust from crates/script_syllables. Do not edit.

//! The dotted circle as the base of syllables that have none.

use crate::buffer::{HB_BUFFER_SCRATCH_FLAG_HAS_BROKEN_SYLLABLE, hb_buffer_t, hb_glyph_info_t};
use crate::glyph::BufferFlags;
use crate::memory::AllocError;
use crate::script_syllables::category::position::Position;
use crate::script_syllables::font::FontForms;
use crate::script_syllables::item::{category_byte, set_category_byte, set_position};
use crate::script_syllables::syllables::kind_of;

/// The dotted circle.
pub(crate) const DOTTED_CIRCLE: u32 = 0x25CC;

/// How a shaper takes the dotted circle.
#[derive(Clone, Copy, Debug)]
pub struct CircleKind {
    /// The byte of its category.
    pub category: u8,
    /// Where it stands.
    pub position: Position,
    /// The byte of the category of a reph, behind which it is put.
    pub repha: Option<u8>,
    /// The kind of broken syllables.
    pub broken: u8,
}

/// What is put before the signs of a broken syllable: a glyph, and how it is taken.
#[derive(Clone, Copy, Debug)]
struct Circle {
    glyph: u32,
    kind: CircleKind,
}

/// Puts a dotted circle into each broken syllable, where the font has one.
///
/// # Requires
///
/// - `buffer.old.have_output ≡ false`
///
/// # Errors
///
/// `Ok(false)` where the text would become too long. `Err(AllocError)` where memory ran out.
///
/// # Proved
///
/// ```text
/// ensures closed { IfOk result (λ done. done ≡ true → buffer.new.have_output ≡ false) }
/// ensures refusal { IsRefusal false result buffer.new }
/// ensures keeps { KeepsNumbers buffer.old buffer.new }
/// ```
#[inline]
pub fn insert_dotted_circles<F: FontForms>(
    buffer: &mut hb_buffer_t,
    font: &F,
    kind: CircleKind,
) -> Result<bool, AllocError> {
    debug_assert!(!buffer.have_output());
    let is_wanted = buffer.scratch_flags & HB_BUFFER_SCRATCH_FLAG_HAS_BROKEN_SYLLABLE != 0
        && !buffer
            .flags
            .contains(BufferFlags::DO_NOT_INSERT_DOTTED_CIRCLE);
    if !is_wanted {
        return Ok(true);
    }
    let Some(glyph) = font.glyph_of(DOTTED_CIRCLE) else {
        return Ok(true);
    };
    buffer.clear_output();
    if !put_circles(buffer, &Circle { glyph, kind })? {
        return Ok(false);
    }
    buffer.sync()
}

/// Reads all items, and puts the circles out.
///
/// # Requires
///
/// - `buffer.old.have_output ≡ true`
fn put_circles(buffer: &mut hb_buffer_t, circle: &Circle) -> Result<bool, AllocError> {
    debug_assert!(buffer.have_output());
    let mut last = 0;
    for _turn in 0..buffer.len() {
        if buffer.lookahead_len() == 0 {
            return Ok(true);
        }
        match read_next(buffer, circle, last)? {
            Some(syllable) => last = syllable,
            None => return Ok(false),
        }
    }
    Ok(true)
}

/// Reads an item, and puts a circle out before it or behind its reph, where it is the first of a broken
/// syllable.
///
/// # Requires
///
/// - `HasCurrent buffer.old`
///
/// # Errors
///
/// The number of the last broken syllable; `None` where a call was refused.
fn read_next(
    buffer: &mut hb_buffer_t,
    circle: &Circle,
    last: u8,
) -> Result<Option<u8>, AllocError> {
    debug_assert!(buffer.have_output() && !buffer.info().is_empty());
    if begins_broken(circle, last, buffer.cur(0)) {
        return read_broken(buffer, circle);
    }
    if !buffer.next_glyph()? {
        return Ok(None);
    }
    Ok(Some(last))
}

/// Reads the rephs of a broken syllable, or where it has none its first item, and puts the circle out.
///
/// # Requires
///
/// - `HasCurrent buffer.old`
fn read_broken(buffer: &mut hb_buffer_t, circle: &Circle) -> Result<Option<u8>, AllocError> {
    debug_assert!(buffer.have_output() && !buffer.info().is_empty());
    let syllable = buffer.cur(0).syllable();
    let rephs = reph_count(buffer.info(), syllable, circle.kind.repha);
    if !put_circle(buffer, circle, rephs)? {
        return Ok(None);
    }
    if rephs > 0 {
        return Ok(Some(syllable));
    }
    if !buffer.next_glyph()? {
        return Ok(None);
    }
    Ok(Some(syllable))
}

/// Whether an item is the first of a broken syllable, where the last of these had this number.
fn begins_broken(circle: &Circle, last: u8, info: &hb_glyph_info_t) -> bool {
    info.syllable() != last && kind_of(info) == circle.kind.broken
}

/// How many items at the start of a list are rephs of a syllable.
fn reph_count(infos: &[hb_glyph_info_t], syllable: u8, repha: Option<u8>) -> usize {
    for count in 0..infos.len() {
        if !is_reph(&infos[count], syllable, repha) {
            return count;
        }
    }
    infos.len()
}

/// Whether an item is a reph of a syllable.
fn is_reph(info: &hb_glyph_info_t, syllable: u8, repha: Option<u8>) -> bool {
    match repha {
        Some(category) => info.syllable() == syllable && category_byte(info) == category,
        None => false,
    }
}

/// Reads so many rephs, and puts a circle out behind them, in the cluster and with the mask of the
/// first item.
///
/// # Requires
///
/// - `current: HasCurrent buffer.old`
/// - `rephs: rephs ≤ length buffer.old.input`
fn put_circle(buffer: &mut hb_buffer_t, circle: &Circle, rephs: usize) -> Result<bool, AllocError> {
    debug_assert!(buffer.have_output() && !buffer.info().is_empty());
    debug_assert!(rephs <= buffer.info().len());
    let info = circle_at(circle, buffer.cur(0));
    if !buffer.next_glyphs(rephs)? {
        return Ok(false);
    }
    buffer.output_info(info)
}

/// A circle in the cluster, with the mask and in the syllable of an item.
fn circle_at(circle: &Circle, current: &hb_glyph_info_t) -> hb_glyph_info_t {
    let mut info = hb_glyph_info_t {
        glyph_id: circle.glyph,
        mask: current.mask,
        cluster: current.cluster,
        var1: 0,
        var2: 0,
    };
    info.set_syllable(current.syllable());
    set_category_byte(&mut info, circle.kind.category);
    set_position(&mut info, circle.kind.position);
    info
}
