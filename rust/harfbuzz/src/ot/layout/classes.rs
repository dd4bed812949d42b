//! What the table `GDEF` says of glyphs.

use crate::face::hb_face_t;
use crate::font::hb_font_t;
use crate::font::opentype::glyph_of;
use crate::ot::layout::{correction, numbers};
use crate::set::hb_set_t;
use crate::sfnt::{at_16, i16_at, tail, u16_at};
use crate::types::{hb_bool_t, hb_codepoint_t, hb_direction_t, hb_position_t, is_horizontal, put, put_part};
use std::ffi::c_uint;
use vukhaso::GlyphId;
use vukhaso::internals::font_tables::coverage::Coverage;
use vukhaso::internals::font_tables::gdef::Gdef;
use vukhaso::internals::font_variations::VariationStore;

/// The table of a face that C passes, as the shaper believes it.
///
/// # Safety
///
/// `face` is alive.
unsafe fn with_classes<T>(face: *mut hb_face_t, ask: impl FnOnce(&Gdef<'_>) -> T) -> T {
    // SAFETY: the caller's word.
    let face = unsafe { &*face };
    face.with_shaper(&face.plain_settings(), |face, _| ask(&face.gdef))
}

#[unsafe(no_mangle)]
pub unsafe extern "C" fn hb_ot_layout_has_glyph_classes(face: *mut hb_face_t) -> hb_bool_t {
    // SAFETY: HarfBuzz's terms: a face that is alive.
    unsafe { with_classes(face, |classes| classes.has_glyph_classes().into()) }
}

#[unsafe(no_mangle)]
pub unsafe extern "C" fn hb_ot_layout_get_glyph_class(face: *mut hb_face_t, glyph: hb_codepoint_t) -> c_uint {
    // SAFETY: HarfBuzz's terms: a face that is alive.
    unsafe { with_classes(face, |classes| glyph_of(glyph).map_or(0, |glyph| classes.glyph_class(glyph).into())) }
}

#[unsafe(no_mangle)]
pub unsafe extern "C" fn hb_ot_layout_get_glyphs_in_class(face: *mut hb_face_t, class: c_uint, set: *mut hb_set_t) {
    // SAFETY: HarfBuzz's terms: a face and a set that are alive.
    unsafe {
        with_classes(face, |classes| {
            let is_in = |glyph: &u16| c_uint::from(classes.glyph_class(GlyphId(*glyph))) == class;
            (0..=u16::MAX).filter(is_in).for_each(|glyph| (*set).add(glyph.into()));
        });
    }
}

/// What a list says of a glyph, by its place in the coverage of the list.
fn listed(list: &[u8], glyph: hb_codepoint_t) -> &[u8] {
    let index = glyph_of(glyph).and_then(|glyph| Coverage::new(at_16(list, 0)).index(glyph));
    match index {
        Some(index) if index < u32::from(u16_at(list, 2)) => at_16(list, 4 + 2 * index as usize),
        _ => &[],
    }
}

#[unsafe(no_mangle)]
pub unsafe extern "C" fn hb_ot_layout_get_attach_points(
    face: *mut hb_face_t,
    glyph: hb_codepoint_t,
    start: c_uint,
    count: *mut c_uint,
    points: *mut c_uint,
) -> c_uint {
    // SAFETY: HarfBuzz's terms: a face that is alive, and room for `count` points.
    unsafe { put_part(numbers(listed(at_16((*face).table(b"GDEF"), 6), glyph), 0), start, count, points) }
}

/// Where a caret stands in a ligature.
fn caret(font: &hb_font_t, glyph: hb_codepoint_t, table: &[u8], across: bool, store: &VariationStore<'_>) -> hb_position_t {
    let number = i32::from(i16_at(table, 2));
    let scaled = if across { font.em_scale_x(number) } else { font.em_scale_y(number) };
    match u16_at(table, 0) {
        1 => scaled,
        2 => {
            let (x, y) = font.contour_point(glyph, u16_at(table, 2).into()).unwrap_or_default();
            if across { x } else { y }
        }
        3 => scaled + correction(font, table, 4, across, store),
        _ => 0,
    }
}

#[unsafe(no_mangle)]
pub unsafe extern "C" fn hb_ot_layout_get_ligature_carets(
    font: *mut hb_font_t,
    direction: hb_direction_t,
    glyph: hb_codepoint_t,
    start: c_uint,
    count: *mut c_uint,
    carets: *mut hb_position_t,
) -> c_uint {
    // SAFETY: HarfBuzz's terms: a font that is alive, and room for `count` carets.
    let font = unsafe { &*font };
    let table = font.face().table(b"GDEF");
    let ligature = listed(at_16(table, 8), glyph);
    if ligature.is_empty() {
        // SAFETY: as above.
        unsafe { put(count, 0) };
        return 0;
    }
    let store = VariationStore::of_gdef(table);
    let across = is_horizontal(direction);
    let mut found: Vec<_> =
        numbers(ligature, 0).map(|offset| caret(font, glyph, tail(ligature, offset as usize), across, &store)).collect();
    if direction == crate::types::RIGHT_TO_LEFT {
        found.sort_unstable();
    }
    // SAFETY: as above.
    unsafe { put_part(found.into_iter(), start, count, carets) }
}
