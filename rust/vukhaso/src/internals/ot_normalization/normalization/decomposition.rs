// Written by tools/plain_rust from crates/ot_normalization. Do not edit.

//! The first round of normalization: a glyph is found for each character, or for its parts.

use super::drop_behind;
use super::parts::{Decomposer, parts_of};
use super::variations::read_variations;
use crate::buffer::{
    CharExt, HB_BUFFER_SCRATCH_FLAG_HAS_SPACE_FALLBACK, hb_buffer_t, hb_glyph_info_t,
};
use crate::common::GlyphId;
use crate::font_functions::FontFunctions;
use crate::glyph::hb_unicode_funcs_t::NOT_SPACE;
use crate::glyph::space_t;
use crate::memory::AllocError;
use crate::passes::normalization::{Parts, add_font_parts};
use crate::script_items::glyph_info::{is_unicode_space, set_space_fallback, set_unicode_props};
use crate::script_items::item::is_unicode_mark;
use crate::script_shapers::{NormalizationMode, ScriptShaper};

/// The hyphen that no line is broken at, and the one that stands for it.
const NON_BREAKING_HYPHEN: u32 = 0x2011;

const HYPHEN: u32 = 0x2010;

/// Of a text of so many characters, the glyphs of so many are remembered.
const REMEMBERED: usize = 64;

/// Finds a glyph for each character, or for its parts. By the mode of a script's shaper, a character
/// with marks is kept too if the font has a glyph for it, or one without marks is taken apart too.
///
/// # Requires
///
/// - `buffer.old.have_output ≡ false`
pub(crate) fn decompose_all<F: FontFunctions>(
    buffer: &mut hb_buffer_t,
    font: &F,
    shaper: ScriptShaper,
) -> Result<bool, AllocError> {
    debug_assert!(!buffer.have_output());
    map_characters(buffer, font);
    if all_stay(buffer.info(), shaper) {
        return Ok(true);
    }
    buffer.clear_output();
    for _turn in 0..buffer.len() {
        if buffer.lookahead_len() == 0 {
            break;
        }
        if !decompose_next(buffer, font, shaper)? {
            return Ok(false);
        }
    }
    buffer.sync()
}

/// Finds the glyph of each character, 0 where the font has none.
///
/// # Requires
///
/// - `buffer.old.have_output ≡ false`
fn map_characters<F: FontFunctions>(buffer: &mut hb_buffer_t, font: &F) {
    debug_assert!(!buffer.have_output());
    map_all(buffer.info_slice_mut(), font);
}

/// Finds the glyph of each of the characters.
fn map_all<F: FontFunctions>(infos: &mut [hb_glyph_info_t], font: &F) {
    if infos.len() < REMEMBERED {
        for i in 0..infos.len() {
            let glyph = glyph_or_0(font, infos[i].glyph_id);
            infos[i].set_glyph_index(glyph);
        }
    } else {
        map_many(infos, font);
    }
}

/// Finds the glyph of each of many characters, most of which were met before. The last character of
/// each number, counted round, is remembered.
fn map_many<F: FontFunctions>(infos: &mut [hb_glyph_info_t], font: &F) {
    let mut known = [(0, 0); REMEMBERED];
    // No character 0 was met: where it would be found stands another one.
    known[0] = (1, 0);
    for i in 0..infos.len() {
        let character = infos[i].glyph_id;
        let place = character as usize % REMEMBERED;
        if known[place].0 != character {
            known[place] = (character, glyph_or_0(font, character));
        }
        infos[i].set_glyph_index(known[place].1);
    }
}

/// The glyph of a character, 0 where the font has none.
fn glyph_or_0<F: FontFunctions>(font: &F, character: u32) -> u32 {
    font.nominal_glyph(character)
        .map_or(0, |glyph| u32::from(glyph.0))
}

/// Whether each character stays as it is.
fn all_stay(infos: &[hb_glyph_info_t], shaper: ScriptShaper) -> bool {
    for place in 0..infos.len() {
        if !stays(infos, place, shaper) {
            return false;
        }
    }
    true
}

/// Whether the character at a place stays as it is: the font has a glyph for it, it selects no
/// variation of another, and it has no parts, or is kept where it has some.
///
/// # Requires
///
/// - `place < length infos.now`
fn stays(infos: &[hb_glyph_info_t], place: usize, shaper: ScriptShaper) -> bool {
    debug_assert!(place < infos.len());
    let info = &infos[place];
    if info.glyph_index() == 0 {
        return false;
    }
    let mode = shaper.normalization_mode();
    let is_kept = if stands_with_marks(infos, place) {
        if is_variation_selector(info.glyph_id) {
            return false;
        }
        mode == NormalizationMode::Nothing
    } else {
        mode != NormalizationMode::Decomposed
    };
    is_kept || parts_of(shaper, info.glyph_id).is_none()
}

/// Whether a mark or the base of marks stands at a place.
///
/// # Requires
///
/// - `place < length infos.now`
fn stands_with_marks(infos: &[hb_glyph_info_t], place: usize) -> bool {
    debug_assert!(place < infos.len());
    place > 0 && is_unicode_mark(&infos[place])
        || infos
            .get(place.saturating_add(1))
            .is_some_and(|next| is_unicode_mark(next))
}

/// Reads characters up to the base of the next marks, and then that base with its marks.
///
/// # Requires
///
/// - `buffer.old.have_output ≡ true`
fn decompose_next<F: FontFunctions>(
    buffer: &mut hb_buffer_t,
    font: &F,
    shaper: ScriptShaper,
) -> Result<bool, AllocError> {
    debug_assert!(buffer.have_output());
    let mode = shaper.normalization_mode();
    let decomposer = Decomposer {
        font,
        shaper,
        short_circuit: mode != NormalizationMode::Decomposed,
    };
    let simple = simple_length(buffer.info());
    if !decompose_characters(buffer, &decomposer, simple)? {
        return Ok(false);
    }
    let cluster = cluster_length(buffer.info());
    if has_variation_selector(buffer.info(), cluster) {
        read_variations(buffer, font, cluster)
    } else {
        let decomposer = Decomposer {
            short_circuit: mode == NormalizationMode::Nothing,
            ..decomposer
        };
        decompose_characters(buffer, &decomposer, cluster)
    }
}

/// How many characters stand before the base of the first marks.
fn simple_length(infos: &[hb_glyph_info_t]) -> usize {
    for i in 1..infos.len() {
        if is_unicode_mark(&infos[i]) {
            return i - 1;
        }
    }
    infos.len()
}

/// How many characters a base and the marks behind it are.
fn cluster_length(infos: &[hb_glyph_info_t]) -> usize {
    for i in 1..infos.len() {
        if !is_unicode_mark(&infos[i]) {
            return i;
        }
    }
    infos.len()
}

/// Whether one of the first characters is a variation selector.
fn has_variation_selector(infos: &[hb_glyph_info_t], count: usize) -> bool {
    infos
        .iter()
        .take(count)
        .any(|info| is_variation_selector(info.glyph_id))
}

/// Whether the character selects a variation of the one before it.
pub(crate) fn is_variation_selector(character: u32) -> bool {
    match char::from_u32(character) {
        Some(character) => character.is_variation_selector(),
        None => false,
    }
}

/// Reads so many characters: each that the font has a glyph for is kept where as few are taken apart as
/// can be, and else taken apart if the font has its parts.
///
/// # Requires
///
/// - `buffer.old.have_output ≡ true`
fn decompose_characters<F: FontFunctions>(
    buffer: &mut hb_buffer_t,
    decomposer: &Decomposer<F>,
    count: usize,
) -> Result<bool, AllocError> {
    debug_assert!(buffer.have_output());
    let mut left = count;
    for _turn in 0..count {
        let ready = ready_length(buffer.info(), left, decomposer.short_circuit);
        if !buffer.next_glyphs(ready)? {
            return Ok(false);
        }
        left -= ready;
        if left == 0 || buffer.lookahead_len() == 0 {
            break;
        }
        if !decompose_current(buffer, decomposer)? {
            return Ok(false);
        }
        left -= 1;
    }
    Ok(true)
}

/// How many of the first characters are kept as they are.
fn ready_length(infos: &[hb_glyph_info_t], count: usize, short_circuit: bool) -> usize {
    if !short_circuit {
        return 0;
    }
    let mut ready = 0;
    while ready < infos.len() && ready < count && infos[ready].glyph_index() != 0 {
        ready += 1;
    }
    ready
}

/// Reads one character: puts its parts out in its place, or itself with a glyph.
///
/// # Requires
///
/// - `HasCurrent buffer.old`
fn decompose_current<F: FontFunctions>(
    buffer: &mut hb_buffer_t,
    decomposer: &Decomposer<F>,
) -> Result<bool, AllocError> {
    debug_assert!(buffer.have_output() && !buffer.info().is_empty());
    let mut parts = Parts::new();
    if add_font_parts(&mut parts, decomposer, buffer.cur(0).glyph_id) {
        return put_parts(buffer, decomposer.font, &parts);
    }
    if buffer.cur(0).glyph_index() == 0 {
        find_fallback(buffer, decomposer.font);
    }
    buffer.next_glyph()
}

/// Puts characters out in place of the current one.
///
/// # Requires
///
/// - `HasCurrent buffer.old`
fn put_parts<F: FontFunctions>(
    buffer: &mut hb_buffer_t,
    font: &F,
    parts: &[u32],
) -> Result<bool, AllocError> {
    debug_assert!(buffer.have_output() && !buffer.info().is_empty());
    for part in parts.iter() {
        if !put_part(buffer, font, *part)? {
            return Ok(false);
        }
    }
    drop_behind(buffer);
    Ok(true)
}

/// Puts a character out in the cluster of the current one.
///
/// # Requires
///
/// - `HasCurrent buffer.old`
fn put_part<F: FontFunctions>(
    buffer: &mut hb_buffer_t,
    font: &F,
    part: u32,
) -> Result<bool, AllocError> {
    debug_assert!(buffer.have_output() && !buffer.info().is_empty());
    let glyph = font.nominal_glyph(part);
    set_current_glyph(buffer, glyph.map_or(0, |glyph| u32::from(glyph.0)));
    if !buffer.output_glyph(part)? {
        return Ok(false);
    }
    set_last_properties(buffer);
    Ok(true)
}

/// Sets the glyph of the current character.
///
/// # Requires
///
/// - `HasCurrent buffer.old`
pub(crate) fn set_current_glyph(buffer: &mut hb_buffer_t, glyph: u32) {
    debug_assert!(buffer.have_output() && !buffer.info().is_empty());
    set_glyph(buffer.cur_mut(0), glyph);
}

/// Sets the glyph of a character.
fn set_glyph(info: &mut hb_glyph_info_t, glyph: u32) {
    info.set_glyph_index(glyph);
}

/// Sets the properties of the character that was put out last.
fn set_last_properties(buffer: &mut hb_buffer_t) {
    let scratch_flags = set_last_in(buffer);
    buffer.scratch_flags = scratch_flags;
}

/// Sets the properties of the last character of a buffer's out side; the scratch flags that then hold.
fn set_last_in(buffer: &mut hb_buffer_t) -> u32 {
    let mut scratch_flags = buffer.scratch_flags;
    set_last(buffer.out_info_mut(), &mut scratch_flags);
    scratch_flags
}

/// Sets the properties of the last of these characters.
fn set_last(infos: &mut [hb_glyph_info_t], scratch_flags: &mut u32) {
    if !infos.is_empty() {
        let last = infos.len() - 1;
        set_unicode_props(&mut infos[last], scratch_flags);
    }
}

/// Finds another glyph for a character that the font lacks: for a space the font's space, of which the
/// width is set later, and for the hyphen that no line is broken at another hyphen.
///
/// # Requires
///
/// - `HasCurrent buffer.old`
fn find_fallback<F: FontFunctions>(buffer: &mut hb_buffer_t, font: &F) {
    debug_assert!(buffer.have_output() && !buffer.info().is_empty());
    let character = buffer.cur(0).glyph_id;
    if is_unicode_space(buffer.cur(0)) {
        find_space(buffer, font, character);
    } else if character == NON_BREAKING_HYPHEN {
        if let Some(glyph) = font.nominal_glyph(HYPHEN) {
            set_current_glyph(buffer, u32::from(glyph.0));
        }
    }
}

/// Takes the font's space, or the buffer's invisible glyph, for a space that the font lacks.
///
/// # Requires
///
/// - `HasCurrent buffer.old`
fn find_space<F: FontFunctions>(buffer: &mut hb_buffer_t, font: &F, character: u32) {
    debug_assert!(buffer.have_output() && !buffer.info().is_empty());
    let space = match char::from_u32(character) {
        Some(character) => character.space_fallback(),
        None => NOT_SPACE,
    };
    let glyph = match font.nominal_glyph(0x20) {
        Some(glyph) => Some(glyph),
        None => buffer.invisible,
    };
    if space != NOT_SPACE {
        if let Some(glyph) = glyph {
            set_space(buffer, space, glyph);
            note_space(buffer);
        }
    }
}

/// Says that a space of the text is one that the font lacks.
///
/// # Requires
///
/// - `opened: buffer.old.have_output ≡ true`
fn note_space(buffer: &mut hb_buffer_t) {
    debug_assert!(buffer.have_output());
    buffer.scratch_flags = buffer.scratch_flags | HB_BUFFER_SCRATCH_FLAG_HAS_SPACE_FALLBACK;
}

/// Sets the glyph of the current character, a space of this kind.
///
/// # Requires
///
/// - `HasCurrent buffer.old`
fn set_space(buffer: &mut hb_buffer_t, space: space_t, glyph: GlyphId) {
    debug_assert!(buffer.have_output() && !buffer.info().is_empty());
    take_space(buffer.cur_mut(0), space, glyph);
}

/// Sets the glyph of a space of this kind.
fn take_space(info: &mut hb_glyph_info_t, space: space_t, glyph: GlyphId) {
    set_space_fallback(info, space);
    info.set_glyph_index(u32::from(glyph.0));
}
