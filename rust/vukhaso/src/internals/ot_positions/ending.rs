// Written by tools/plain_rust from crates/ot_positions. Do not edit.

//! The last steps of shaping: glyphs that are not to be seen, and a text of which shaping was given up.

use crate::buffer::{
    BufferFlags, HB_BUFFER_SCRATCH_FLAG_HAS_DEFAULT_IGNORABLES,
    HB_BUFFER_SCRATCH_FLAG_HAS_VARIATION_SELECTOR_FALLBACK, hb_buffer_t, hb_glyph_info_t,
};
use crate::common::GlyphId;
use crate::font_functions::FontFunctions;
use crate::ot_positions::cluster_flags::share_flags;
use crate::ot_positions::widths::take_width_at;
use crate::passes::hide_default_ignorables;
use crate::script_items::glyph_info::{clear_variation_selector, is_variation_selector};

/// Gives each variation selector that the font does not know the glyph that the buffer has for it,
/// without width.
///
/// # Requires
///
/// Positions, and that no output is open.
///
/// - `closed: buffer.old.have_output ≡ false`
/// - `placed: IsSome buffer.old.positions`
///
/// # Proved
///
/// ```text
/// ensures is { buffer.new ≡ ending.show_variation_selectors buffer.old }
/// ensures closed { buffer.new.have_output ≡ false }
/// ensures placed { IsSome buffer.new.positions }
/// ensures keeps { KeepsClusters buffer.old buffer.new }
/// ```
#[inline]
pub fn show_variation_selectors(buffer: &mut hb_buffer_t) {
    debug_assert!(!buffer.have_output());
    debug_assert!(buffer.have_positions());
    if !has_unknown_selectors(buffer) {
        return;
    }
    match not_found_selector(buffer) {
        Some(glyph) => show_selectors(buffer, glyph),
        None => {}
    }
}

/// Whether some character is a variation selector that the font does not know.
fn has_unknown_selectors(buffer: &hb_buffer_t) -> bool {
    buffer.scratch_flags & HB_BUFFER_SCRATCH_FLAG_HAS_VARIATION_SELECTOR_FALLBACK != 0
}

/// The glyph that the buffer has for such a selector.
fn not_found_selector(buffer: &hb_buffer_t) -> Option<u32> {
    buffer.not_found_variation_selector
}

/// Gives each of these selectors this glyph, without width.
///
/// # Requires
///
/// - `closed: buffer.old.have_output ≡ false`
/// - `placed: IsSome buffer.old.positions`
fn show_selectors(buffer: &mut hb_buffer_t, glyph: u32) {
    debug_assert!(!buffer.have_output());
    debug_assert!(buffer.have_positions());
    narrow_selectors(buffer);
    show_in(buffer, glyph);
}

/// Takes all width and every offset of these selectors.
///
/// # Requires
///
/// - `closed: buffer.old.have_output ≡ false`
/// - `placed: IsSome buffer.old.positions`
fn narrow_selectors(buffer: &mut hb_buffer_t) {
    debug_assert!(!buffer.have_output());
    debug_assert!(buffer.have_positions());
    for i in 0..buffer.len() {
        if is_selector(&buffer.info()[i]) {
            take_width_at(buffer, i);
        }
    }
}

/// Whether the item is a variation selector that the font does not know.
fn is_selector(info: &hb_glyph_info_t) -> bool {
    is_variation_selector(info)
}

/// Gives these selectors of a buffer this glyph.
///
/// # Requires
///
/// - `closed: buffer.old.have_output ≡ false`
/// - `placed: IsSome buffer.old.positions`
fn show_in(buffer: &mut hb_buffer_t, glyph: u32) {
    debug_assert!(!buffer.have_output());
    debug_assert!(buffer.have_positions());
    show_all(buffer.info_slice_mut(), glyph);
}

/// Gives these selectors this glyph.
fn show_all(infos: &mut [hb_glyph_info_t], glyph: u32) {
    for info in infos.iter_mut() {
        show(info, glyph);
    }
}

/// Gives an item this glyph, if it is such a selector.
fn show(info: &mut hb_glyph_info_t, glyph: u32) {
    if is_selector(info) {
        info.glyph_id = glyph;
        clear_variation_selector(info);
    }
}

/// Hides the glyphs of characters that are invisible by default: the font's space stands for them,
/// where the buffer has no glyph for that.
///
/// # Requires
///
/// Positions, and that no output is open.
///
/// - `closed: buffer.old.have_output ≡ false`
/// - `placed: IsSome buffer.old.positions`
///
/// # Proved
///
/// ```text
/// ensures hides { ending.Hides (F.has font.now) (F.may_have font.now) buffer.old buffer.new }
/// ensures closed { buffer.new.have_output ≡ false }
/// ensures placed { IsSome buffer.new.positions }
/// ensures keeps { KeepsClusters buffer.old buffer.new }
/// ```
#[inline]
pub fn hide_ignorables<F: FontFunctions>(buffer: &mut hb_buffer_t, font: &F) {
    debug_assert!(!buffer.have_output());
    debug_assert!(buffer.have_positions());
    if has_ignorables(buffer) {
        let glyph = glyph_for_ignorables(font, invisible_of(buffer));
        hide_by(buffer, glyph);
    }
}

/// Whether some characters are invisible by default.
fn has_ignorables(buffer: &hb_buffer_t) -> bool {
    buffer.scratch_flags & HB_BUFFER_SCRATCH_FLAG_HAS_DEFAULT_IGNORABLES != 0
}

/// The glyph that the buffer has for what is not to be seen.
fn invisible_of(buffer: &hb_buffer_t) -> Option<GlyphId> {
    buffer.invisible
}

/// The glyph that stands for what is not to be seen: this one, or else that of the font's space.
fn glyph_for_ignorables<F: FontFunctions>(font: &F, invisible: Option<GlyphId>) -> Option<GlyphId> {
    match invisible {
        Some(glyph) => Some(glyph),
        None => font.nominal_glyph(0x20),
    }
}

/// Hides these glyphs by the one that stands for them.
///
/// # Requires
///
/// - `closed: buffer.old.have_output ≡ false`
/// - `placed: IsSome buffer.old.positions`
fn hide_by(buffer: &mut hb_buffer_t, glyph: Option<GlyphId>) {
    debug_assert!(!buffer.have_output());
    debug_assert!(buffer.have_positions());
    let invisible = invisible_of(buffer);
    set_invisible(buffer, glyph);
    share_flags_of_removed(buffer);
    hide_all(buffer);
    set_invisible(buffer, invisible);
}

/// Sets the glyph that stands for what is not to be seen.
///
/// # Requires
///
/// - `closed: buffer.old.have_output ≡ false`
/// - `placed: IsSome buffer.old.positions`
fn set_invisible(buffer: &mut hb_buffer_t, glyph: Option<GlyphId>) {
    debug_assert!(!buffer.have_output());
    debug_assert!(buffer.have_positions());
    buffer.invisible = glyph;
}

/// Shares the glyph flags of clusters where the glyphs that are not to be seen are taken out.
///
/// # Requires
///
/// - `closed: buffer.old.have_output ≡ false`
/// - `placed: IsSome buffer.old.positions`
fn share_flags_of_removed(buffer: &mut hb_buffer_t) {
    debug_assert!(!buffer.have_output());
    debug_assert!(buffer.have_positions());
    if are_removed(buffer) {
        share_flags(buffer);
    }
}

/// Whether the glyphs that are not to be seen are taken out: no glyph stands for them, or the buffer's
/// flags say so.
fn are_removed(buffer: &hb_buffer_t) -> bool {
    buffer.invisible.is_none()
        || buffer
            .flags
            .contains(BufferFlags::REMOVE_DEFAULT_IGNORABLES)
}

/// Hides these glyphs.
///
/// # Requires
///
/// - `closed: buffer.old.have_output ≡ false`
/// - `placed: IsSome buffer.old.positions`
fn hide_all(buffer: &mut hb_buffer_t) {
    debug_assert!(!buffer.have_output());
    debug_assert!(buffer.have_positions());
    debug_assert!(buffer.out_len() == 0);
    hide_default_ignorables(buffer);
}

/// Marks all clusters but the least as unsafe to break where shaping was given up: parts of the text,
/// each with a budget of its own, may be shaped further.
///
/// # Requires
///
/// Positions, and that no output is open.
///
/// - `closed: buffer.old.have_output ≡ false`
/// - `placed: IsSome buffer.old.positions`
///
/// # Proved
///
/// ```text
/// ensures is { buffer.new
///     ≡ (if buffer.old.shaping_failed then step.unsafe_to_break None None buffer.old else buffer.old) }
/// ensures closed { buffer.new.have_output ≡ false }
/// ensures placed { IsSome buffer.new.positions }
/// ensures keeps { KeepsClusters buffer.old buffer.new }
/// ```
#[inline]
pub fn mark_given_up(buffer: &mut hb_buffer_t) {
    debug_assert!(!buffer.have_output());
    debug_assert!(buffer.have_positions());
    if buffer.shaping_failed {
        buffer.unsafe_to_break(None, None);
    }
}
