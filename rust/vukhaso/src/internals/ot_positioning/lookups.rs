// Written by tools/plain_rust from crates/ot_positioning. Do not edit.

//! The lookups that position glyphs, applied to a text in the order of its plan.

use crate::buffer::hb_buffer_t;
use crate::common::GlyphId;
use crate::font_face::Face;
use crate::font_functions::FontFunctions;
use crate::font_variations::Deltas;
use crate::glyph_digests::Digest;
use crate::memory::AllocError;
use crate::ot_attachments::position_start;
use crate::ot_gpos::Setting;
use crate::ot_gpos_tables::contour_points::{ContourPoint, ContourPoints};
use crate::ot_gpos_tables::instance::Instance;
use crate::ot_gpos_tables::kern_table::KernTable;
use crate::ot_layout::{LookupOptions, Search};
use crate::ot_map::{OtShapePlan, PlannedLookup};
use crate::ot_plan::{Step, Watch, budget_of, options_of};

/// The size and the variations at which a font is used, as its lookups ask for them.
fn instance_of<'a>(face: &'a Face) -> Instance<'a> {
    Instance {
        scale: face.scale,
        deltas: Deltas {
            store: face.variations.store,
            coordinates: face.coordinates(),
        },
    }
}

/// A font, as its lookups ask it for points of outlines.
#[derive(Debug)]
struct FontPoints<'a, F> {
    font: &'a F,
}

impl<F: FontFunctions> ContourPoints for FontPoints<'_, F> {
    fn contour_point(&self, glyph: u32, point: u16) -> Option<ContourPoint> {
        let glyph = GlyphId(u16::try_from(glyph).unwrap_or(0));
        let (x, y) = self.font.glyph_contour_point(glyph, point)?;
        Some(ContourPoint { x, y })
    }
}

/// Positions the glyphs by the lookups of `GPOS`, and by the table `kern` where `GPOS` does not kern.
///
/// # Requires
///
/// - `placed: HasPositions buffer.old`
pub(crate) fn position_by_lookups<F: FontFunctions, W: Watch>(
    buffer: &mut hb_buffer_t,
    face: &Face,
    font: &F,
    plan: &OtShapePlan,
    watch: &mut W,
) -> Result<(), AllocError> {
    debug_assert!(!buffer.have_output() && buffer.have_positions());
    position_start(buffer);
    apply_positions(buffer, face, font, lookups_of(plan), watch)?;
    kern_by_table(buffer, face, plan, watch)
}

/// The lookups of `GPOS`, where the plan has them.
fn lookups_of(plan: &OtShapePlan) -> &[PlannedLookup] {
    if plan.apply_gpos {
        plan.layout.gpos_lookups.as_slice()
    } else {
        &[]
    }
}

/// Kerns by the table `kern`, where the plan has it.
///
/// # Requires
///
/// - `placed: HasPositions buffer.old`
fn kern_by_table<W: Watch>(
    buffer: &mut hb_buffer_t,
    face: &Face,
    plan: &OtShapePlan,
    watch: &mut W,
) -> Result<(), AllocError> {
    debug_assert!(!buffer.have_output() && buffer.have_positions());
    if plan.apply_kern {
        apply_kern(buffer, face, plan.kern_mask);
        watch.step(Step::Kerned, buffer)?;
    }
    Ok(())
}

/// Applies lookups of `GPOS`.
///
/// # Requires
///
/// - `placed: HasPositions buffer.old`
fn apply_positions<F: FontFunctions, W: Watch>(
    buffer: &mut hb_buffer_t,
    face: &Face,
    font: &F,
    lookups: &[PlannedLookup],
    watch: &mut W,
) -> Result<(), AllocError> {
    debug_assert!(!buffer.have_output() && buffer.have_positions());
    if lookups.is_empty() {
        return Ok(());
    }
    let points = FontPoints { font };
    let setting = Setting {
        list: &face.lookups.positions,
        instance: instance_of(face),
        points: &points,
    };
    let mut search = Search::new(budget_of(buffer));
    let glyphs = Digest::of_glyphs(buffer.info());
    for planned in lookups {
        apply_planned(buffer, &setting, planned, &glyphs, &mut search, watch)?;
    }
    Ok(())
}

/// Applies a lookup of `GPOS` of the plan, where it may be for one of the glyphs.
///
/// # Requires
///
/// - `placed: HasPositions buffer.old`
fn apply_planned<F: FontFunctions, W: Watch>(
    buffer: &mut hb_buffer_t,
    setting: &Setting<FontPoints<F>>,
    planned: &PlannedLookup,
    glyphs: &Digest,
    search: &mut Search,
    watch: &mut W,
) -> Result<(), AllocError> {
    debug_assert!(!buffer.have_output() && buffer.have_positions());
    if !setting.list.may_apply(planned.index, glyphs) {
        return Ok(());
    }
    let options = options_of(planned);
    crate::ot_gpos::position(buffer, setting, planned.index, &options, search);
    watch.step(Step::Positioned(planned.index), buffer)
}

/// Kerns by the table `kern`.
///
/// # Requires
///
/// - `placed: HasPositions buffer.old`
fn apply_kern(buffer: &mut hb_buffer_t, face: &Face, mask: u32) {
    debug_assert!(!buffer.have_output() && buffer.have_positions());
    let options = LookupOptions {
        mask,
        auto_zwnj: true,
        auto_zwj: true,
        per_syllable: false,
        random: false,
    };
    let table = KernTable::new(face.layout.kern);
    crate::ot_kern::kern(buffer, &table, &face.scale, &options);
}
