// Written by tools/plain_rust from crates/ot_apply. Do not edit.

//! Joined syllables of which a lookup of a stage hangs on the form.

use crate::buffer::{hb_buffer_t, hb_glyph_info_t};
use crate::font_face::Face;
use crate::glyph_digests::Digest;
use crate::ot_apply::seen_glyphs::digest_of;
use crate::ot_lookups::lookup_list::{Lookup, SUBSTITUTION_EXTENSION};
use crate::ot_map::PlannedLookup;
use crate::ot_plan::TextPlan;
use crate::script_shapers::SyllablePlan;
use crate::script_universal::{FormLookup, FormMasks, flag_forms};

/// The kind of a lookup of ligatures. Those above it up to extensions take several glyphs too, or may do.
const LIGATURES: u16 = 4;

/// A lookup, and the bits of its features.
#[derive(Clone, Copy, Debug)]
struct MaskedLookup<'a> {
    lookup: &'a Lookup<'a>,
    mask: u32,
}

impl FormLookup for MaskedLookup<'_> {
    fn is_parted(&self, glyph: &hb_glyph_info_t, other: u32) -> bool {
        is_parted(self.lookup, self.mask, glyph, other)
    }
}

/// Whether a lookup with these bits of its features is for a glyph, and is so with only one of the
/// masks: the glyph's own, and another.
fn is_parted(lookup: &Lookup<'_>, bits: u32, glyph: &hb_glyph_info_t, other: u32) -> bool {
    is_in_one(bits, glyph.mask, other)
        && (lookup.is_for(u32::MAX, glyph) || may_follow(lookup, glyph))
}

/// Whether a glyph may be another than the first of those that a lookup takes together.
fn may_follow(lookup: &Lookup<'_>, glyph: &hb_glyph_info_t) -> bool {
    matches!(lookup.lookup_type, LIGATURES..=SUBSTITUTION_EXTENSION)
        && !lookup.lookup_props.passes_over(glyph)
}

/// Whether bits are in only one of two masks.
fn is_in_one(bits: u32, one: u32, other: u32) -> bool {
    if one & bits == 0 {
        other & bits != 0
    } else {
        other & bits == 0
    }
}

/// Marks as unsafe to break joined syllables of which a lookup of a stage hangs on the form, and sees
/// which glyphs there are then.
///
/// # Requires
///
/// - `closed: buffer.old.have_output ≡ false`
/// - `met: HasGlyphs glyphs.old buffer.old.input`
#[inline(always)]
pub(crate) fn keep_joined(
    buffer: &mut hb_buffer_t,
    face: &Face,
    plan: &TextPlan,
    lookups: &[PlannedLookup],
    glyphs: &mut Digest,
) {
    debug_assert!(!buffer.have_output());
    let SyllablePlan::Universal(universal) = &plan.syllables else {
        return;
    };
    for planned in lookups {
        keep_formed(buffer, face, &universal.forms, planned);
    }
    *glyphs = digest_of(buffer);
}

/// Marks those of which a lookup hangs on the form.
///
/// # Requires
///
/// - `buffer.old.have_output ≡ false`
fn keep_formed(buffer: &mut hb_buffer_t, face: &Face, forms: &FormMasks, planned: &PlannedLookup) {
    debug_assert!(!buffer.have_output());
    if planned.mask & forms.all() == 0 {
        return;
    }
    if let Some(lookup) = face.lookups.substitutions.lookup(planned.index) {
        let masked = MaskedLookup {
            lookup,
            mask: planned.mask,
        };
        flag_forms(buffer, forms, &masked);
    }
}
