// Written by tools/plain_rust from crates/ot_characters. Do not edit.

//! The dotted circle before a text that begins with a mark (HarfBuzz, `hb_insert_dotted_circle`).

use crate::buffer::{BufferFlags, hb_buffer_t, hb_glyph_info_t};
use crate::font_functions::FontFunctions;
use crate::memory::AllocError;
use crate::script_items::glyph_info::set_unicode_props;
use crate::script_items::item::is_unicode_mark;

/// The dotted circle, which a mark without a base is put on.
const DOTTED_CIRCLE: u32 = 0x25CC;

/// Puts a dotted circle before a text that is the beginning of a paragraph and begins with a mark.
///
/// # Requires
///
/// - `buffer.old.have_output ≡ false`
///
/// # Errors
///
/// `Err(AllocError)` where memory ran out.
///
/// # Proved
///
/// ```text
/// ensures inserts { IfOk result (circles.InsertsCircle (F.has font.now) buffer.old buffer.new) }
/// ensures closed { IfOk result (λ done. done ≡ true → buffer.new.have_output ≡ false) }
/// ensures refusal { IsRefusal false result buffer.new }
/// ensures keeps { KeepsClusters buffer.old buffer.new }
/// ```
#[inline]
pub fn insert_dotted_circle<F: FontFunctions>(
    buffer: &mut hb_buffer_t,
    font: &F,
) -> Result<bool, AllocError> {
    debug_assert!(!buffer.have_output());
    if !wants_circle(buffer) {
        return Ok(true);
    }
    if !has_circle(font) {
        return Ok(true);
    }
    insert_circle(buffer)
}

/// Whether a font has a glyph for the dotted circle.
fn has_circle<F: FontFunctions>(font: &F) -> bool {
    font.nominal_glyph(DOTTED_CIRCLE).is_some()
}

/// Puts a dotted circle before a text.
///
/// # Requires
///
/// - `closed: buffer.old.have_output ≡ false`
/// - `some: 0 < length buffer.old.input`
fn insert_circle(buffer: &mut hb_buffer_t) -> Result<bool, AllocError> {
    debug_assert!(!buffer.have_output());
    debug_assert!(!buffer.info().is_empty());
    let circle = circle_before(&buffer.info()[0]);
    buffer.clear_output();
    put_circle(buffer, circle)?;
    buffer.sync()
}

/// Puts a dotted circle out, which is in the cluster of the current character.
///
/// # Requires
///
/// - `opened: buffer.old.have_output ≡ true`
/// - `some: 0 < length buffer.old.input`
/// - `beside: circle.cluster ≡ (head_of buffer.old).cluster`
fn put_circle(buffer: &mut hb_buffer_t, circle: hb_glyph_info_t) -> Result<bool, AllocError> {
    debug_assert!(buffer.have_output());
    debug_assert!(!buffer.info().is_empty());
    buffer.output_info(circle)
}

/// The dotted circle of a mark.
fn circle_before(mark: &hb_glyph_info_t) -> hb_glyph_info_t {
    let mut circle = hb_glyph_info_t {
        glyph_id: DOTTED_CIRCLE,
        mask: mark.mask,
        cluster: mark.cluster,
        var1: 0,
        var2: 0,
    };
    set_unicode_props(&mut circle, &mut 0);
    circle
}

/// Whether the text begins a paragraph, with a mark.
fn wants_circle(buffer: &hb_buffer_t) -> bool {
    if !may_have_circle(buffer) || !buffer.context(0).is_empty() {
        return false;
    }
    begins_with_mark(buffer.info())
}

/// Whether a text is said to begin a paragraph, and no circle is forbidden.
fn may_have_circle(buffer: &hb_buffer_t) -> bool {
    buffer.flags.contains(BufferFlags::BEGINNING_OF_TEXT)
        && !buffer
            .flags
            .contains(BufferFlags::DO_NOT_INSERT_DOTTED_CIRCLE)
}

/// Whether the first of the characters is a mark.
fn begins_with_mark(infos: &[hb_glyph_info_t]) -> bool {
    if infos.is_empty() {
        return false;
    }
    is_unicode_mark(&infos[0])
}
