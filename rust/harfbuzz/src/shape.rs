//! `hb-shape.h` and `hb-shape-plan.h`: shaping, by the proved `shape`.

mod asked_font;
mod fallback;
mod plan;
mod watching;

use crate::buffer::{GLYPHS, Listener, changing, hb_buffer_t, hb_glyph_info_t, hb_glyph_position_t};
use crate::common::features::hb_feature_t;
use crate::common::languages::shaper_language;
use crate::common::scripts::shaper_script;
use crate::font::hb_font_t;
use crate::shape::asked_font::AskedFont;
use crate::shape::watching::Telling;
use crate::types::{BOTTOM_TO_TOP, LEFT_TO_RIGHT, RIGHT_TO_LEFT, TOP_TO_BOTTOM, hb_bool_t, hb_direction_t, is_valid, slice};
use std::ffi::{CStr, c_char, c_uint};
use vukhaso::internals::ot_shape::{
    KeptPlans, shape_watched, shape_with_functions_and_plans, shape_with_functions_watched, shape_with_kept_plans,
};
use vukhaso::{BufferClusterLevel, BufferFlags, Direction, Face, Feature, GlyphBuffer, GlyphId, ShapeError, UnicodeBuffer};

/// How a text is shaped.
#[derive(Clone, Copy, PartialEq, Debug)]
enum Shaper {
    OpenType,
    Fallback,
}

/// The names of the shapers, as C reads them.
struct Names([*const c_char; 3]);

// SAFETY: addresses of constants.
unsafe impl Sync for Names {}

static NAMES: Names = Names([c"ot".as_ptr(), c"fallback".as_ptr(), std::ptr::null()]);

impl Shaper {
    fn name(self) -> *const c_char {
        match self {
            Shaper::OpenType => NAMES.0[0],
            Shaper::Fallback => NAMES.0[1],
        }
    }

    /// The first shaper of a list that is there.
    ///
    /// # Safety
    ///
    /// `list` is null, or texts with a null address behind them.
    unsafe fn of_list(list: *const *const c_char) -> Option<Shaper> {
        if list.is_null() {
            return Some(Shaper::OpenType);
        }
        let mut place = 0;
        loop {
            // SAFETY: the caller's word.
            let name = unsafe { *list.add(place) };
            if name.is_null() {
                return None;
            }
            // SAFETY: the caller's word.
            match unsafe { CStr::from_ptr(name) }.to_bytes() {
                b"ot" => return Some(Shaper::OpenType),
                b"fallback" => return Some(Shaper::Fallback),
                _ => place += 1,
            }
        }
    }
}

#[unsafe(no_mangle)]
pub extern "C" fn hb_shape_list_shapers() -> *const *const c_char {
    NAMES.0.as_ptr()
}

fn direction_of(direction: hb_direction_t) -> Direction {
    match direction {
        LEFT_TO_RIGHT => Direction::LeftToRight,
        RIGHT_TO_LEFT => Direction::RightToLeft,
        TOP_TO_BOTTOM => Direction::TopToBottom,
        BOTTOM_TO_TOP => Direction::BottomToTop,
        _ => Direction::Invalid,
    }
}

fn character(codepoint: u32) -> char {
    char::from_u32(codepoint).unwrap_or(char::REPLACEMENT_CHARACTER)
}

/// An empty text, in which what is not to be seen gives way to a glyph.
fn empty_text(invisible: u32) -> UnicodeBuffer {
    let text = UnicodeBuffer::new();
    match u16::try_from(invisible) {
        Ok(glyph) if glyph != 0 => {
            let mut buffer = text.into_buffer();
            buffer.invisible = Some(GlyphId(glyph));
            buffer.clear_positions();
            GlyphBuffer::from_buffer(buffer).clear()
        }
        _ => text,
    }
}

/// The text of a buffer as the shaper takes it.
fn text_of(buffer: &hb_buffer_t) -> Option<UnicodeBuffer> {
    let mut text = empty_text(buffer.invisible);
    let before: String = buffer.context[0].iter().rev().map(|codepoint| character(*codepoint)).collect();
    text.set_pre_context(&before);
    for info in &buffer.infos {
        text.add(character(info.codepoint), info.cluster).ok().filter(|is_added| *is_added)?;
    }
    let behind: String = buffer.context[1].iter().map(|codepoint| character(*codepoint)).collect();
    text.set_post_context(&behind);
    text.set_direction(direction_of(buffer.properties.direction));
    if let Some(script) = shaper_script(buffer.properties.script) {
        text.set_script(script);
    }
    if let Some(language) = shaper_language(buffer.properties.language) {
        text.set_language(language);
    }
    text.set_flags(BufferFlags::from_bits_truncate(buffer.flags));
    text.set_cluster_level(match buffer.cluster_level {
        1 => BufferClusterLevel::MonotoneCharacters,
        2 => BufferClusterLevel::Characters,
        3 => BufferClusterLevel::Graphemes,
        _ => BufferClusterLevel::MonotoneGraphemes,
    });
    if buffer.not_found_variation_selector != u32::MAX {
        text.set_not_found_variation_selector_glyph(buffer.not_found_variation_selector);
    }
    Some(text)
}

/// Glyphs with their positions, as C reads them.
#[derive(Default)]
struct Shaped {
    infos: Vec<hb_glyph_info_t>,
    positions: Vec<hb_glyph_position_t>,
}

impl Shaped {
    fn of(infos: &[vukhaso::GlyphInfo], positions: &[vukhaso::GlyphPosition]) -> Self {
        let info = |info: &vukhaso::GlyphInfo| hb_glyph_info_t {
            codepoint: info.glyph_id,
            mask: info.mask,
            cluster: info.cluster,
            var1: info.var1,
            var2: info.var2,
        };
        let position = |position: &vukhaso::GlyphPosition| hb_glyph_position_t {
            x_advance: position.x_advance,
            y_advance: position.y_advance,
            x_offset: position.x_offset,
            y_offset: position.y_offset,
            var: position.var,
        };
        Shaped { infos: infos.iter().map(info).collect(), positions: positions.iter().map(position).collect() }
    }
}

/// The glyphs of a text by the tables of a font.
fn shaped_by(
    face: &Face<'static>,
    kept: &mut KeptPlans,
    features: &[Feature],
    text: UnicodeBuffer,
    telling: Option<Telling>,
) -> Result<Shaped, ShapeError> {
    let glyphs = match telling {
        Some(mut telling) => shape_watched(face, features, text, &mut telling)?,
        None => shape_with_kept_plans(face, features, kept, text)?,
    };
    Ok(Shaped::of(glyphs.glyph_infos(), glyphs.glyph_positions()))
}

/// The glyphs of a text by a font of which functions of the caller's answer.
fn shaped_with(
    face: &Face<'static>,
    font: &hb_font_t,
    asked: &AskedFont,
    features: &[Feature],
    text: UnicodeBuffer,
    telling: Option<Telling>,
) -> Result<Shaped, ShapeError> {
    let glyphs = match telling {
        Some(mut telling) => shape_with_functions_watched(face, asked, features, text, &mut telling)?,
        None => font.with_plans(|kept| shape_with_functions_and_plans(face, asked, features, kept, text))?,
    };
    Ok(Shaped::of(glyphs.glyph_infos(), glyphs.glyph_positions()))
}

/// Shapes the text of a buffer.
///
/// # Safety
///
/// `buffer` and `font` are alive, and nobody else uses the buffer.
unsafe fn shape_text(font: &hb_font_t, buffer: *mut hb_buffer_t, features: &[hb_feature_t]) -> bool {
    // SAFETY: the caller's word. The reference ends before a function of the caller's is called.
    let (text, listener): (_, Listener) = unsafe { (text_of(&*buffer), (*buffer).listener) };
    let Some(text) = text else {
        return false;
    };
    let features: Vec<Feature> = features.iter().map(|feature| feature.of_shaper()).collect();
    let telling = listener.function.map(|function| Telling::new(function, listener.data, buffer, font));
    let asked = AskedFont::new(font);
    let shaped = if asked.is_own {
        font.with_shaper_and_plan(|face, kept| shaped_by(face, kept, &features, text, telling))
    } else {
        font.with_shaper(|face| shaped_with(face, font, &asked, &features, text, telling))
    };
    let Ok(mut shaped) = shaped else {
        return false;
    };
    // SAFETY: the caller's word.
    unsafe {
        asked.correct(&*buffer, &mut shaped);
        put(&mut *buffer, shaped);
    }
    true
}

fn put(buffer: &mut hb_buffer_t, shaped: Shaped) {
    buffer.infos = shaped.infos;
    buffer.positions = shaped.positions;
    buffer.have_positions = true;
    buffer.content_type = GLYPHS;
}

/// Shapes the text of a buffer by a shaper.
///
/// # Safety
///
/// `font` and `buffer` are alive, and nobody else uses the buffer.
unsafe fn shape_by(shaper: Shaper, font: *mut hb_font_t, buffer: *mut hb_buffer_t, features: &[hb_feature_t]) -> bool {
    // SAFETY: the caller's word.
    let Some(held) = (unsafe { changing(buffer) }) else {
        return false;
    };
    if held.infos.is_empty() {
        return true;
    }
    if !is_valid(held.properties.direction) || !held.successful {
        return false;
    }
    let font = if font.is_null() { <hb_font_t as crate::object::Object>::empty() } else { font };
    // SAFETY: the caller's word.
    unsafe {
        match shaper {
            Shaper::OpenType => shape_text(&*font, buffer, features),
            Shaper::Fallback => {
                fallback::shape(&*font, &mut *buffer);
                true
            }
        }
    }
}

#[unsafe(no_mangle)]
pub unsafe extern "C" fn hb_shape_full(
    font: *mut hb_font_t,
    buffer: *mut hb_buffer_t,
    features: *const hb_feature_t,
    count: c_uint,
    shapers: *const *const c_char,
) -> hb_bool_t {
    // SAFETY: HarfBuzz's terms: a font that is alive, a buffer that nobody else uses, so many features, and a list of names.
    unsafe {
        if (*buffer).infos.is_empty() {
            return 1;
        }
        match Shaper::of_list(shapers) {
            Some(shaper) => shape_by(shaper, font, buffer, slice(features, count as usize)).into(),
            None => 0,
        }
    }
}

#[unsafe(no_mangle)]
pub unsafe extern "C" fn hb_shape(font: *mut hb_font_t, buffer: *mut hb_buffer_t, features: *const hb_feature_t, count: c_uint) {
    // SAFETY: the same terms.
    unsafe { hb_shape_full(font, buffer, features, count, std::ptr::null()) };
}
