// Written by tools/plain_rust from crates/script_universal. Do not edit.

//! Joined syllables that may not be parted: a lookup is for one of their glyphs in the form that it has, and not in the one that it
//! would have in a part of the text, or the other way about.

use crate::buffer::{hb_buffer_t, hb_glyph_info_t};
use crate::script_syllables::syllables::{kind_at, syllable};
use crate::script_universal::universal::masks::{in_form, joins};
use crate::script_universal::universal::plan::FormMasks;

/// A lookup that a form may have.
pub trait FormLookup {
    /// Whether the lookup is for a glyph, and is so with only one of the masks: the glyph's own, and
    /// another.
    ///
    /// # Proved
    ///
    /// That it returns.
    fn is_parted(&self, glyph: &hb_glyph_info_t, other: u32) -> bool;
}

/// A syllable that joins the one before it, or begins a word.
#[derive(Clone, Copy, Debug)]
struct Joined {
    /// Where it begins.
    start: usize,
    /// Where it ends.
    end: usize,
    /// Whether it begins a word.
    is_first: bool,
}

/// Flags joined syllables as unsafe to break where a lookup hangs on the form of one of them that a
/// break between them changes.
///
/// # Requires
///
/// - `buffer.old.have_output ≡ false`
///
/// # Proved
///
/// ```text
/// ensures { StaysClosed buffer.old buffer.new }
/// ```
#[inline]
pub fn flag_forms<L: FormLookup>(buffer: &mut hb_buffer_t, masks: &FormMasks, lookup: &L) {
    debug_assert!(!buffer.have_output());
    flag_parted(buffer, masks, &|glyph, other| {
        lookup.is_parted(glyph, other)
    });
}

/// Does that, by what is asked of a lookup.
///
/// # Requires
///
/// - `closed: buffer.old.have_output ≡ false`
/// - `callable: F.IsAlwaysCallable is_parted.now`
fn flag_parted<F: Fn(&hb_glyph_info_t, u32) -> bool>(
    buffer: &mut hb_buffer_t,
    masks: &FormMasks,
    is_parted: &F,
) {
    debug_assert!(!buffer.have_output());
    let mut last = None;
    let mut start = 0;
    for _turn in 0..buffer.len() {
        if start >= buffer.len() {
            return;
        }
        let end = buffer.next_syllable(start);
        let joined = joined_at(buffer.info(), start, end, last);
        flag_joined(buffer, masks, is_parted, last, joined);
        last = joined;
        start = end;
    }
}

/// The syllable between these places behind another one, if it joins.
fn joined_at(
    infos: &[hb_glyph_info_t],
    start: usize,
    end: usize,
    last: Option<Joined>,
) -> Option<Joined> {
    if joins(kind_at(infos, start)) {
        Some(Joined {
            start,
            end,
            is_first: last.is_none(),
        })
    } else {
        None
    }
}

/// Flags two syllables, if both join and a break between them changes what the lookup is for.
///
/// # Requires
///
/// - `closed: buffer.old.have_output ≡ false`
/// - `callable: F.IsAlwaysCallable is_parted.now`
fn flag_joined<F: Fn(&hb_glyph_info_t, u32) -> bool>(
    buffer: &mut hb_buffer_t,
    masks: &FormMasks,
    is_parted: &F,
    last: Option<Joined>,
    own: Option<Joined>,
) {
    debug_assert!(!buffer.have_output());
    match last {
        Some(last) => match own {
            Some(own) => flag_pair(buffer, masks, is_parted, &last, &own),
            None => {}
        },
        None => {}
    }
}

/// Flags two syllables that join, if a break between them changes what the lookup is for.
///
/// # Requires
///
/// - `closed: buffer.old.have_output ≡ false`
/// - `callable: F.IsAlwaysCallable is_parted.now`
fn flag_pair<F: Fn(&hb_glyph_info_t, u32) -> bool>(
    buffer: &mut hb_buffer_t,
    masks: &FormMasks,
    is_parted: &F,
    last: &Joined,
    own: &Joined,
) {
    debug_assert!(!buffer.have_output());
    if !lie_within(last, own, buffer.len()) {
        return;
    }
    if !are_parted(buffer.info(), masks, is_parted, last, own) {
        return;
    }
    buffer.unsafe_to_break(Some(last.start), Some(own.end));
}

/// Whether two syllables lie in a text of so many items.
fn lie_within(last: &Joined, own: &Joined, count: usize) -> bool {
    last.start <= own.end && own.end <= count
}

/// Whether a break between two syllables changes what the lookup is for, by the forms that they have
/// before it and behind it.
///
/// # Requires
///
/// - `F.IsAlwaysCallable is_parted.now`
fn are_parted<F: Fn(&hb_glyph_info_t, u32) -> bool>(
    infos: &[hb_glyph_info_t],
    masks: &FormMasks,
    is_parted: &F,
    last: &Joined,
    own: &Joined,
) -> bool {
    let before = form_before(masks, last);
    if is_one_parted(
        syllable(infos, &(last.start..last.end)),
        masks,
        is_parted,
        before,
    ) {
        return true;
    }
    let behind = form_behind(masks, infos, own);
    is_one_parted(
        syllable(infos, &(own.start..own.end)),
        masks,
        is_parted,
        behind,
    )
}

/// The mask of the form that a syllable has before a break: it becomes the last of its word, or stands
/// alone.
fn form_before(masks: &FormMasks, last: &Joined) -> u32 {
    if last.is_first {
        masks.isol
    } else {
        masks.fina
    }
}

/// The mask of the form that a syllable has behind a break: it becomes the first of its word, or stands
/// alone.
fn form_behind(masks: &FormMasks, infos: &[hb_glyph_info_t], own: &Joined) -> u32 {
    if joins(kind_at(infos, own.end)) {
        masks.init
    } else {
        masks.isol
    }
}

/// Whether the lookup is for one of these glyphs only in the form that it has, or only in another one.
///
/// # Requires
///
/// - `F.IsAlwaysCallable is_parted.now`
fn is_one_parted<F: Fn(&hb_glyph_info_t, u32) -> bool>(
    glyphs: &[hb_glyph_info_t],
    masks: &FormMasks,
    is_parted: &F,
    form: u32,
) -> bool {
    for glyph in glyphs {
        if is_parted(glyph, in_form(masks, form, glyph.mask)) {
            return true;
        }
    }
    false
}
