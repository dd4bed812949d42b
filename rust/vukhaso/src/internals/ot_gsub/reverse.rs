// Written by tools/plain_rust from crates/ot_gsub. Do not edit.

//! Reverse substitutions: glyphs are replaced in place, from the last one to the first, so that each sees what became of
//! those after it.

use crate::buffer::hb_buffer_t;
use crate::font_tables::gdef::Gdef;
use crate::glyph::hb_glyph_info_t;
use crate::ot_gsub::properties::{Way, substituted_props};
use crate::ot_gsub::substitution::{Progress, Substitutions};
use crate::ot_layout::{ApplyContext, LookupOptions, Reach, SkippingIterator};
use crate::ot_lookups::Lookup;
use crate::ot_substitution::substitution::{Edit, edit_at};

/// Applies a lookup of reverse substitutions at each glyph, from the last one to the first.
///
/// # Requires
///
/// - `buffer.old.have_output ≡ false`
pub(crate) fn substitute_reverse(
    buffer: &mut hb_buffer_t,
    substitutions: &Substitutions,
    lookup: &Lookup,
    progress: &mut Progress,
) {
    debug_assert!(!buffer.have_output());
    let count = buffer.len();
    for turn in 0..count {
        substitute_one(buffer, substitutions, lookup, progress, count - 1 - turn);
    }
}

/// Applies the lookup to the glyph at a place, if there is one.
///
/// # Requires
///
/// - `buffer.old.have_output ≡ false`
fn substitute_one(
    buffer: &mut hb_buffer_t,
    substitutions: &Substitutions,
    lookup: &Lookup,
    progress: &mut Progress,
    place: usize,
) {
    debug_assert!(!buffer.have_output());
    let edit = decide(buffer, substitutions, lookup, progress, place);
    mark_concat(buffer, &progress.search.reach, place);
    let Some(edit) = edit else {
        return;
    };
    progress.has_changed = true;
    make(buffer, substitutions.gdef, place, &edit);
}

/// Makes an edit of the glyph at a place.
///
/// # Requires
///
/// - `buffer.old.have_output ≡ false`
fn make(buffer: &mut hb_buffer_t, gdef: &Gdef, place: usize, edit: &Edit) {
    debug_assert!(!buffer.have_output());
    if let Edit::ReplaceInPlace(change) = *edit {
        mark_break(buffer, change.from, place.saturating_add(change.to));
        replace_in_place(buffer, gdef, place, change.glyph);
    }
}

/// What the lookup does at a place.
///
/// # Requires
///
/// - `buffer.now.have_output ≡ false`
fn decide<'a>(
    buffer: &hb_buffer_t,
    substitutions: &Substitutions<'a>,
    lookup: &Lookup,
    progress: &mut Progress,
    place: usize,
) -> Option<Edit<'a>> {
    debug_assert!(!buffer.have_output());
    progress.search.reach = Reach::none(0);
    if !is_taken(buffer, substitutions, lookup, place) {
        return None;
    }
    let options = &substitutions.options;
    let glyphs = buffer.info();
    let ctx = ApplyContext {
        out: glyphs_before(glyphs, place),
        input: glyphs_from(glyphs, place),
        iterator: SkippingIterator::over_input(lookup.lookup_props, options, false),
        context: SkippingIterator::over_context(lookup.lookup_props, options, false),
        syllable: syllable_at(glyphs, options, place),
        is_level: true,
    };
    progress.search.reach = Reach::none(place);
    edit_at(
        substitutions.list,
        lookup,
        options,
        false,
        &ctx,
        &mut progress.search,
    )
}

/// Whether the lookup is for the glyph at a place, if there is one.
///
/// # Requires
///
/// - `buffer.now.have_output ≡ false`
fn is_taken(
    buffer: &hb_buffer_t,
    substitutions: &Substitutions,
    lookup: &Lookup,
    place: usize,
) -> bool {
    debug_assert!(!buffer.have_output());
    let glyphs = buffer.info();
    if place >= glyphs.len() {
        return false;
    }
    lookup.is_for(substitutions.options.mask, &glyphs[place])
}

/// The glyphs before a place.
///
/// # Requires
///
/// - `place ≤ length glyphs.now`
fn glyphs_before(glyphs: &[hb_glyph_info_t], place: usize) -> &[hb_glyph_info_t] {
    debug_assert!(place <= glyphs.len());
    &glyphs[..place]
}

/// The glyphs from a place on.
///
/// # Requires
///
/// - `place ≤ length glyphs.now`
fn glyphs_from(glyphs: &[hb_glyph_info_t], place: usize) -> &[hb_glyph_info_t] {
    debug_assert!(place <= glyphs.len());
    &glyphs[place..]
}

/// The syllable of the glyph at a place where all glyphs of a match are of one syllable, or else 0.
///
/// # Requires
///
/// - `place < length glyphs.now`
fn syllable_at(glyphs: &[hb_glyph_info_t], options: &LookupOptions, place: usize) -> u8 {
    debug_assert!(place < glyphs.len());
    if options.per_syllable {
        glyphs[place].syllable()
    } else {
        0
    }
}

/// Marks the glyphs that were looked at from a place on, and before it, as unsafe to concatenate.
///
/// # Requires
///
/// - `buffer.old.have_output ≡ false`
fn mark_concat(buffer: &mut hb_buffer_t, reach: &Reach, place: usize) {
    debug_assert!(!buffer.have_output());
    let to = place.saturating_add(reach.to).min(buffer.len());
    if reach.to > 0 && reach.from <= to {
        buffer.unsafe_to_concat_from_outbuffer(Some(reach.from), Some(to));
    }
}

/// Marks the glyphs of a range as unsafe to break.
///
/// # Requires
///
/// - `buffer.old.have_output ≡ false`
fn mark_break(buffer: &mut hb_buffer_t, from: usize, to: usize) {
    debug_assert!(!buffer.have_output());
    let to = to.min(buffer.len());
    if from <= to {
        buffer.unsafe_to_break_from_outbuffer(Some(from), Some(to));
    }
}

/// Replaces the glyph at a place of the buffer.
///
/// # Requires
///
/// - `buffer.old.have_output ≡ false`
fn replace_in_place(buffer: &mut hb_buffer_t, gdef: &Gdef, place: usize, glyph: u16) {
    debug_assert!(!buffer.have_output());
    set_glyph_at(buffer.info_slice_mut(), gdef, place, glyph);
}

/// Replaces the glyph at a place.
fn set_glyph_at(glyphs: &mut [hb_glyph_info_t], gdef: &Gdef, place: usize, glyph: u16) {
    if place < glyphs.len() {
        let mut written = glyphs[place];
        let props = substituted_props(gdef, written.glyph_props(), glyph, Way::Replaced, 0);
        written.set_glyph_props(props);
        written.glyph_id = u32::from(glyph);
        glyphs[place] = written;
    }
}
