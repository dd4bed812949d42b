// Written by tools/plain_rust from crates/ot_apply. Do not edit.

//! The lookups that substitute glyphs, applied to a text stage by stage, and what the shaper of its script does between two stages.

use crate::aat_substitution::{ChainFlags, Substitution, remove_deleted_glyphs};
use crate::buffer::hb_buffer_t;
use crate::font_face::Face;
use crate::font_functions::FontFunctions;
use crate::font_tables::gdef::Gdef;
use crate::glyph_digests::Digest;
use crate::memory::AllocError;
use crate::ot_apply::cluster_order::ClusterCourse;
use crate::ot_apply::forms_of_font::{fail_if_spent, work_on_syllables};
use crate::ot_apply::joined_syllables::keep_joined;
use crate::ot_apply::seen_glyphs::{digest_of, see_after, see_changes};
use crate::ot_gsub::{Progress, Substitutions};
use crate::ot_layout::LookupOptions;
use crate::ot_lookups::LookupList;
use crate::ot_lookups::lookup_list::SUBSTITUTION_EXTENSION;
use crate::ot_map::{LayoutPlan, Pause, PlannedLookup};
use crate::ot_plan::{Step, TextPlan, Watch, budget_of};
use crate::script_joining::FallbackLookups;

/// Applies the lookups of `GSUB`, stage by stage, and lets clusters run as they ran before, also where
/// the shaper of the script puts the glyphs of syllables in another order. Where the budget of the
/// lookups is spent, `buffer.shaping_failed` says so.
///
/// # Requires
///
/// - `buffer.old.have_output ≡ false`
///
/// # Errors
///
/// `Ok(false)` where a call was refused for length. `Err(AllocError)` where memory ran out.
///
/// # Proved
///
/// ```text
/// ensures closed { IfOk result (λ done. done ≡ true → buffer.new.have_output ≡ false) }
/// ensures refusal { IsRefusal false result buffer.new }
/// ensures keeps { IfOk result (λ done. done ≡ true → KeepsClusters buffer.old buffer.new) }
/// ensures stages { result ≡ Ok true → plan.now.chain_flags ≡ None → buffer.new.shaping_failed ≡ false
///     → IsDoneByStages face.now plan.now buffer.old buffer.new }
/// ```
#[inline]
pub fn substitute<F: FontFunctions, W: Watch>(
    buffer: &mut hb_buffer_t,
    face: &Face,
    font: &F,
    plan: &TextPlan,
    watch: &mut W,
) -> Result<bool, AllocError> {
    debug_assert!(!buffer.have_output());
    if let Some(flags) = &plan.chain_flags {
        return substitute_by_morx(buffer, face, flags, plan.shape.apply_gpos);
    }
    let course = course_of_syllables(buffer, plan);
    let mut progress = Progress::new(budget_of(buffer));
    if !apply_stages(buffer, face, font, plan, &mut progress, watch)? {
        return Ok(false);
    }
    course.restore(buffer);
    fail_if_spent(buffer, &progress.search.budget);
    Ok(true)
}

/// Substitutes glyphs by Apple's table `morx`. Those that it deletes are taken out at once where `GPOS`
/// is to position the glyphs.
///
/// # Requires
///
/// - `buffer.old.have_output ≡ false`
///
/// # Errors
///
/// `Ok(false)` where a call was refused for length.
fn substitute_by_morx(
    buffer: &mut hb_buffer_t,
    face: &Face,
    flags: &ChainFlags,
    removes_deleted: bool,
) -> Result<bool, AllocError> {
    debug_assert!(!buffer.have_output());
    let substitution = Substitution {
        table: &face.lookups.morx,
        flags,
        gdef: &face.gdef,
    };
    if !crate::aat_substitution::substitute(buffer, &substitution)? {
        return Ok(false);
    }
    remove_deleted(buffer, removes_deleted);
    Ok(true)
}

/// Takes out glyphs that were deleted, where this is said.
///
/// # Requires
///
/// - `buffer.old.have_output ≡ false`
fn remove_deleted(buffer: &mut hb_buffer_t, removes: bool) {
    debug_assert!(!buffer.have_output());
    if removes {
        remove_deleted_glyphs(buffer);
    }
}

/// How the clusters of a text run, where the shaper of the script puts the glyphs of syllables in
/// another order. Else none are to be put in order.
///
/// # Requires
///
/// - `buffer.now.have_output ≡ false`
fn course_of_syllables(buffer: &hb_buffer_t, plan: &TextPlan) -> ClusterCourse {
    debug_assert!(!buffer.have_output());
    if !plan.orders_syllables() {
        return ClusterCourse::Neither;
    }
    ClusterCourse::of(buffer)
}

/// Applies the lookups of all stages, with what is done between them.
///
/// # Requires
///
/// - `buffer.old.have_output ≡ false`
///
/// # Errors
///
/// `Ok(false)` where a call was refused for length.
fn apply_stages<F: FontFunctions, W: Watch>(
    buffer: &mut hb_buffer_t,
    face: &Face,
    font: &F,
    plan: &TextPlan,
    progress: &mut Progress,
    watch: &mut W,
) -> Result<bool, AllocError> {
    debug_assert!(!buffer.have_output());
    progress.has_changed = false;
    let mut glyphs = digest_of(buffer);
    let mut start = 0;
    let stages = plan.shape.layout.stages.as_slice();
    for stage in stages {
        let lookups = lookups_of(&plan.shape.layout, start, stage.end);
        keep_joined(buffer, face, plan, lookups, &mut glyphs);
        if !apply_stage(buffer, face, lookups, &mut glyphs, progress, watch)? {
            return Ok(false);
        }
        if !pause(buffer, face, font, plan, stage.pause, progress)? {
            return Ok(false);
        }
        see_after(buffer, stage.pause, &mut glyphs, progress);
        start = stage.end;
    }
    Ok(true)
}

/// The lookups of a stage, from its first place in the list of all to its end.
#[inline(always)]
fn lookups_of(layout: &LayoutPlan, start: usize, end: usize) -> &[PlannedLookup] {
    if start <= end && end <= layout.gsub_lookups.len() {
        &layout.gsub_lookups[start..end]
    } else {
        &[]
    }
}

/// Applies the lookups of a stage.
///
/// # Requires
///
/// - `closed: buffer.old.have_output ≡ false`
/// - `seen: HasSeen glyphs.old progress.old.has_changed buffer.old`
///
/// # Errors
///
/// `Ok(false)` where a call was refused for length.
fn apply_stage<W: Watch>(
    buffer: &mut hb_buffer_t,
    face: &Face,
    lookups: &[PlannedLookup],
    glyphs: &mut Digest,
    progress: &mut Progress,
    watch: &mut W,
) -> Result<bool, AllocError> {
    debug_assert!(!buffer.have_output());
    for planned in lookups {
        if !apply_planned(buffer, face, planned, glyphs, progress)? {
            return Ok(false);
        }
        watch.step(Step::Substituted(planned.index), buffer)?;
    }
    Ok(true)
}

/// Applies a lookup of the plan if it may be for one of the glyphs, and where it changed some sees
/// which there are now.
///
/// # Requires
///
/// - `closed: buffer.old.have_output ≡ false`
/// - `seen: HasSeen glyphs.old progress.old.has_changed buffer.old`
///
/// # Errors
///
/// `Ok(false)` where a call was refused for length.
#[inline(always)]
fn apply_planned(
    buffer: &mut hb_buffer_t,
    face: &Face,
    planned: &PlannedLookup,
    glyphs: &mut Digest,
    progress: &mut Progress,
) -> Result<bool, AllocError> {
    debug_assert!(!buffer.have_output());
    debug_assert!(buffer.out_len() == 0);
    let substitutions = substitutions_of(face, planned);
    if !substitutions.list.may_apply(planned.index, glyphs) {
        return Ok(true);
    }
    if !crate::ot_gsub::substitute(buffer, &substitutions, planned.index, progress)? {
        return Ok(false);
    }
    see_changes(buffer, glyphs, progress);
    Ok(true)
}

/// The lookups of a font, and how one of the plan is applied.
#[inline(always)]
fn substitutions_of<'a>(face: &'a Face<'a>, planned: &PlannedLookup) -> Substitutions<'a> {
    Substitutions {
        list: &face.lookups.substitutions,
        gdef: &face.gdef,
        options: LookupOptions {
            mask: planned.mask,
            auto_zwnj: planned.auto_zwnj,
            auto_zwj: planned.auto_zwj,
            per_syllable: planned.per_syllable,
            random: planned.random,
        },
    }
}

/// What is done after a stage.
///
/// # Requires
///
/// - `buffer.old.have_output ≡ false`
///
/// # Errors
///
/// `Ok(false)` where a call was refused for length.
fn pause<F: FontFunctions>(
    buffer: &mut hb_buffer_t,
    face: &Face,
    font: &F,
    plan: &TextPlan,
    pause: Pause,
    progress: &mut Progress,
) -> Result<bool, AllocError> {
    debug_assert!(!buffer.have_output());
    match pause {
        Pause::RecordStch => {
            plan.script.record_stch(buffer);
            Ok(true)
        }
        Pause::ArabicFallback => match &plan.fallback {
            Some(fallback) => apply_fallback(buffer, face, fallback, progress),
            None => Ok(true),
        },
        Pause::SetUpSyllables
        | Pause::InitialReordering
        | Pause::FinalReordering
        | Pause::ClearSubstitutionFlags
        | Pause::RecordRphf
        | Pause::RecordPref => work_on_syllables(buffer, face, font, plan, pause),
        Pause::Nothing => Ok(true),
    }
}

/// Joins Arabic letters of a font that has their forms as characters, and no features for them, by the
/// lookups of a fallback.
///
/// # Requires
///
/// - `buffer.old.have_output ≡ false`
///
/// # Errors
///
/// `Ok(false)` where a call was refused for length.
fn apply_fallback(
    buffer: &mut hb_buffer_t,
    face: &Face,
    fallback: &FallbackLookups,
    progress: &mut Progress,
) -> Result<bool, AllocError> {
    debug_assert!(!buffer.have_output());
    let list = LookupList::new(
        fallback.table.as_slice(),
        SUBSTITUTION_EXTENSION,
        &face.gdef,
    )?;
    let lookups = MaskedLookups {
        list: &list,
        gdef: &face.gdef,
        masks: fallback.masks.as_slice(),
    };
    lookups.apply(buffer, progress)
}

/// Lookups, each with the mask of the glyphs that it is applied to.
#[derive(Clone, Copy, Debug)]
struct MaskedLookups<'a, 'list, 'gdef> {
    list: &'a LookupList<'list>,
    gdef: &'a Gdef<'gdef>,
    masks: &'a [u32],
}

impl MaskedLookups<'_, '_, '_> {
    /// Applies each of them.
    ///
    /// # Requires
    ///
    /// - `buffer.old.have_output ≡ false`
    ///
    /// # Errors
    ///
    /// `Ok(false)` where a call was refused for length.
    fn apply(&self, buffer: &mut hb_buffer_t, progress: &mut Progress) -> Result<bool, AllocError> {
        debug_assert!(!buffer.have_output());
        for index in 0..self.masks.len() {
            let substitutions = Substitutions {
                list: self.list,
                gdef: self.gdef,
                options: options_of_fallback(self.masks[index]),
            };
            let index = u16::try_from(index).unwrap_or(0);
            if !crate::ot_gsub::substitute(buffer, &substitutions, index, progress)? {
                return Ok(false);
            }
        }
        Ok(true)
    }
}

/// How a lookup of the fallback is applied.
fn options_of_fallback(mask: u32) -> LookupOptions {
    LookupOptions {
        mask,
        auto_zwnj: true,
        auto_zwj: true,
        per_syllable: false,
        random: false,
    }
}
