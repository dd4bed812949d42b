// Written by tools/plain_rust from crates/ot_characters. Do not edit.

//! The characters of a text, before they are mapped to glyphs: their properties, graphemes and direction.

use crate::buffer::{
    CharExt, Direction, HB_BUFFER_CLUSTER_LEVEL_MONOTONE_GRAPHEMES,
    HB_BUFFER_SCRATCH_FLAG_HAS_NON_ASCII, hb_buffer_t, hb_glyph_info_t,
};
use crate::glyph::hb_gc::RB_UNICODE_GENERAL_CATEGORY_MODIFIER_SYMBOL;
use crate::ot_characters::glyph_info::{
    is_regional_indicator, is_same_grapheme, is_zwj, set_continuation,
};
use crate::ot_characters::native_direction::runs_against;
use crate::ot_characters::turned_contexts::keep_turned_contexts;
use crate::script_items::allows_any_order;
use crate::script_items::glyph_info::{is_continuation, set_unicode_props};
use crate::script_items::item::general_category;

/// No character before this one goes on with a grapheme: the first that emoji are made from.
const FIRST_PICTOGRAPHIC: u32 = 0xA9;

/// Of a text of so many characters, the properties of so many are remembered.
const REMEMBERED: usize = 64;

/// Sets the properties of each character, and says which go on with the grapheme before them.
///
/// # Requires
///
/// - `buffer.old.have_output ≡ false`
///
/// # Proved
///
/// ```text
/// ensures is { buffer.new ≡ properties.set_properties buffer.old }
/// ensures closed { buffer.new.have_output ≡ false }
/// ensures keeps { KeepsClusters buffer.old buffer.new }
/// ```
#[inline]
pub fn set_properties(buffer: &mut hb_buffer_t) {
    debug_assert!(!buffer.have_output());
    let scratch_flags = set_all_in(buffer);
    remember(buffer, scratch_flags);
}

/// Remembers these scratch flags of a text.
///
/// # Requires
///
/// - `buffer.old.have_output ≡ false`
fn remember(buffer: &mut hb_buffer_t, scratch_flags: u32) {
    debug_assert!(!buffer.have_output());
    buffer.scratch_flags = scratch_flags;
}

/// Sets the properties of each character of a buffer; the scratch flags that then hold.
///
/// # Requires
///
/// - `buffer.old.have_output ≡ false`
fn set_all_in(buffer: &mut hb_buffer_t) -> u32 {
    debug_assert!(!buffer.have_output());
    let mut scratch_flags = buffer.scratch_flags;
    set_all_properties(buffer.info_slice_mut(), &mut scratch_flags);
    scratch_flags
}

/// Sets the properties of each character.
fn set_all_properties(infos: &mut [hb_glyph_info_t], scratch_flags: &mut u32) {
    if infos.len() >= REMEMBERED {
        return set_many_properties(infos, scratch_flags);
    }
    for i in 0..infos.len() {
        set_unicode_props(&mut infos[i], scratch_flags);
        join_grapheme(infos, i);
    }
}

/// Sets the properties of each of many characters, most of which were met before. The last character of
/// each number, counted round, is remembered.
fn set_many_properties(infos: &mut [hb_glyph_info_t], scratch_flags: &mut u32) {
    let mut known = [(0, 0); REMEMBERED];
    // No character 0 was met: where it would be found stands another one.
    known[0] = (1, 0);
    for i in 0..infos.len() {
        set_known_properties(&mut infos[i], &mut known, scratch_flags);
        join_grapheme(infos, i);
    }
}

/// Sets the properties of a character, which may have been met before.
///
/// # Requires
///
/// - `AreMet known.old scratch_flags.old`
#[inline(always)]
fn set_known_properties(
    info: &mut hb_glyph_info_t,
    known: &mut [(u32, u16); REMEMBERED],
    scratch_flags: &mut u32,
) {
    let character = info.glyph_id;
    let place = character as usize % REMEMBERED;
    if known[place].0 == character {
        info.set_unicode_props(known[place].1);
    } else {
        set_unicode_props(info, scratch_flags);
        known[place] = (character, info.unicode_props());
    }
}

/// Says of the character at a place whether it goes on with the grapheme before it.
///
/// # Requires
///
/// - `i < length infos.old`
#[inline(always)]
fn join_grapheme(infos: &mut [hb_glyph_info_t], i: usize) {
    debug_assert!(i < infos.len());
    if continues_grapheme(infos, i) {
        set_continuation(&mut infos[i]);
    }
}

/// Whether a character that is no mark goes on with the grapheme before it (Unicode Standard Annex 29):
/// a modifier of an emoji, the second of two regional indicators, the zero width joiner and an emoji
/// behind it, tags, and the voiced sound marks of halfwidth Katakana.
///
/// # Requires
///
/// - `i < length infos.now`
#[inline(always)]
fn continues_grapheme(infos: &[hb_glyph_info_t], i: usize) -> bool {
    debug_assert!(i < infos.len());
    let info = &infos[i];
    match info.glyph_id {
        0..FIRST_PICTOGRAPHIC => false,
        0x1F3FB..=0x1F3FF => general_category(info) == RB_UNICODE_GENERAL_CATEGORY_MODIFIER_SYMBOL,
        0x1F1E6..=0x1F1FF => is_behind_first_indicator(infos, i),
        0xFF9E..=0xFF9F | 0xE0020..=0xE007F => true,
        _ => is_zwj(info) || is_behind_zwj(infos, i) && is_pictographic(info),
    }
}

/// Whether the character before a place is the first of two regional indicators.
///
/// # Requires
///
/// - `i < length infos.now`
fn is_behind_first_indicator(infos: &[hb_glyph_info_t], i: usize) -> bool {
    debug_assert!(i < infos.len());
    i > 0 && begins_flag(&infos[i - 1])
}

/// Whether the character is the first of two regional indicators.
fn begins_flag(info: &hb_glyph_info_t) -> bool {
    is_regional_indicator(info) && !is_continuation(info)
}

/// Whether the character before a place is the zero width joiner.
///
/// # Requires
///
/// - `i < length infos.now`
fn is_behind_zwj(infos: &[hb_glyph_info_t], i: usize) -> bool {
    debug_assert!(i < infos.len());
    i > 0 && is_zwj(&infos[i - 1])
}

/// Whether emoji are made from the character.
fn is_pictographic(info: &hb_glyph_info_t) -> bool {
    match char::from_u32(info.glyph_id) {
        Some(character) => character.is_emoji_extended_pictographic(),
        None => false,
    }
}

/// Makes each grapheme one cluster, or unsafe to break where the cluster level keeps its characters
/// apart.
///
/// # Requires
///
/// - `buffer.old.have_output ≡ false`
///
/// # Proved
///
/// ```text
/// ensures is { buffer.new ≡ formed.with_clusters buffer.old }
/// ensures closed { buffer.new.have_output ≡ false }
/// ensures keeps { KeepsClusters buffer.old buffer.new }
/// ```
#[inline]
pub fn form_clusters(buffer: &mut hb_buffer_t) {
    debug_assert!(!buffer.have_output());
    if buffer.scratch_flags & HB_BUFFER_SCRATCH_FLAG_HAS_NON_ASCII == 0 {
        return;
    }
    let merges = buffer.cluster_level == HB_BUFFER_CLUSTER_LEVEL_MONOTONE_GRAPHEMES;
    form_each(buffer, merges);
}

/// Makes each grapheme one cluster, or unsafe to break.
///
/// # Requires
///
/// - `buffer.old.have_output ≡ false`
fn form_each(buffer: &mut hb_buffer_t, merges: bool) {
    debug_assert!(!buffer.have_output());
    let count = buffer.info().len();
    let mut start = 0;
    for _turn in 0..count {
        if start >= buffer.info().len() {
            break;
        }
        let end = buffer.group_end(start, is_same_grapheme);
        form_cluster(buffer, start, end, merges);
        start = end;
    }
}

/// Makes a grapheme one cluster, or unsafe to break.
///
/// # Requires
///
/// - `closed: buffer.old.have_output ≡ false`
/// - `order: start ≤ end`
/// - `within: end ≤ length buffer.old.input`
fn form_cluster(buffer: &mut hb_buffer_t, start: usize, end: usize, merges: bool) {
    debug_assert!(!buffer.have_output());
    debug_assert!(start <= end);
    debug_assert!(end <= buffer.info().len());
    if merges {
        buffer.merge_clusters(start, end);
    } else {
        buffer.unsafe_to_break(Some(start), Some(end));
    }
}

/// Reverses a text that runs against its script, grapheme by grapheme, and says whether it did.
///
/// # Requires
///
/// - `buffer.old.have_output ≡ false`
///
/// # Proved
///
/// ```text
/// ensures turned { result ≡ ways.runs_against buffer.old }
/// ensures is { buffer.new ≡ ways.in_native_direction buffer.old }
/// ensures closed { buffer.new.have_output ≡ false }
/// ensures runs { KeepsOrTurns result buffer.old buffer.new }
/// ```
#[inline]
pub fn ensure_native_direction(buffer: &mut hb_buffer_t) -> bool {
    debug_assert!(!buffer.have_output());
    if !runs_against(buffer) {
        return false;
    }
    let direction = buffer.direction.reverse();
    reverse_graphemes(buffer, direction);
    true
}

/// Marks as unsafe to break where a text that runs against its script would be shaped otherwise by
/// contexts, which are not reversed with it.
///
/// # Requires
///
/// - `buffer.old.have_output ≡ false`
///
/// # Proved
///
/// ```text
/// ensures closed { buffer.new.have_output ≡ false }
/// ensures keeps { KeepsClusters buffer.old buffer.new }
/// ```
#[inline]
pub fn keep_contexts(buffer: &mut hb_buffer_t) {
    debug_assert!(!buffer.have_output());
    if runs_against(buffer) {
        keep_turned_contexts(buffer);
    }
}

/// Puts the graphemes into reverse order, each in its own order, so that the text runs in this
/// direction. Where clusters have to stay in order each grapheme is made one cluster before; at the
/// level of graphemes it is one already.
///
/// # Requires
///
/// - `buffer.old.have_output ≡ false`
fn reverse_graphemes(buffer: &mut hb_buffer_t, direction: Direction) {
    debug_assert!(!buffer.have_output());
    let merges = !allows_any_order(buffer);
    buffer.reverse_groups(is_same_grapheme, merges);
    set_direction(buffer, direction);
}

/// Says how the text runs.
///
/// # Requires
///
/// - `buffer.old.have_output ≡ false`
///
/// # Proved
///
/// ```text
/// ensures is { buffer.new ≡ record buffer.old { direction = direction } }
/// ensures keeps { KeepsClusters buffer.old buffer.new }
/// ```
#[inline]
pub fn set_direction(buffer: &mut hb_buffer_t, direction: Direction) {
    debug_assert!(!buffer.have_output());
    buffer.direction = direction;
}
