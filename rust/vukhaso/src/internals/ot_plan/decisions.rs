// Written by tools/plain_rust from crates/ot_plan. Do not edit.

//! What the plan of a text decides of fractions, kerning and marks.

use crate::common::{Direction, Tag};
use crate::font_face::Face;
use crate::ot_gpos_tables::kern_table::KernTable;
use crate::ot_map::{FontLayout, KernLayout, LayoutPlan, OtShapePlan};
use crate::script_shapers::{ScriptShaper, ZeroWidthMarks};

/// The shaper of a text.
#[derive(Clone, Copy, Debug)]
pub(crate) struct ChosenShaper {
    /// The shaper of the script. It says what becomes of marks.
    pub own: ScriptShaper,
    /// The shaper of the text: the plain one where glyphs are substituted by `morx`, and else that of the script.
    pub shaper: ScriptShaper,
    /// Whether glyphs are substituted by `morx`.
    pub substitutes_by_morx: bool,
    /// Whether the font has the script in its table `GSUB`.
    pub finds_script: bool,
}

/// What follows from the features of a plan, the tables of a font and the shaper of a text: HarfBuzz's
/// `hb_ot_shape_planner_t::compile`.
pub(crate) fn decided(
    layout: LayoutPlan,
    font: &FontLayout,
    direction: Direction,
    chosen: &ChosenShaper,
) -> OtShapePlan {
    let kern = font.kern;
    let frac_mask = one_mask(&layout, b"frac");
    let numr_mask = one_mask(&layout, b"numr");
    let dnom_mask = one_mask(&layout, b"dnom");
    let rtlm_mask = one_mask(&layout, b"rtlm");
    let vert_mask = one_mask(&layout, b"vert");
    let mark_mask = one_mask(&layout, b"mark");
    let kern_mask = kerning_mask(&layout, direction);
    let apply_gpos = applies_gpos(font.gpos, chosen.shaper, layout.gpos_script);
    let apply_kern = applies_kern(&layout, direction, kern.is_there, apply_gpos);
    let are_unplaced = !apply_gpos && !(apply_kern && kern.is_cross_stream);
    OtShapePlan {
        frac_mask,
        numr_mask,
        dnom_mask,
        has_frac: frac_mask != 0 || numr_mask != 0 && dnom_mask != 0,
        rtlm_mask,
        has_vert: vert_mask != 0,
        kern_mask,
        requested_kerning: kern_mask != 0,
        apply_gpos,
        apply_kern,
        apply_fallback_kern: !apply_gpos && !apply_kern,
        zero_marks: loses_width(chosen.own) && !(apply_kern && kern.has_machine),
        has_gpos_mark: mark_mask != 0,
        adjust_mark_positioning_when_zeroing: are_unplaced && !chosen.substitutes_by_morx,
        fallback_mark_positioning: chosen.own.fallback_position() && are_unplaced,
        layout,
    }
}

/// The bit of the value 1 of a feature; 0 where the plan does not have it.
fn one_mask(layout: &LayoutPlan, name: &[u8; 4]) -> u32 {
    let tag = Tag::from_bytes(name);
    layout.one_mask(tag)
}

/// The bits of the value of a feature; 0 where the plan does not have it.
pub(crate) fn mask(layout: &LayoutPlan, name: &[u8; 4]) -> u32 {
    let tag = Tag::from_bytes(name);
    layout.mask(tag)
}

/// The bits of kerning in lines of a direction.
fn kerning_mask(layout: &LayoutPlan, direction: Direction) -> u32 {
    let tag = kern_tag(direction);
    layout.mask(tag)
}

/// The feature of kerning in lines of a direction.
fn kern_tag(direction: Direction) -> Tag {
    if direction.is_horizontal() {
        Tag::from_bytes(b"kern")
    } else {
        Tag::from_bytes(b"vkrn")
    }
}

/// Whether the lookups of `GPOS` position glyphs: where the font has the table, and in it the script
/// that the shaper wants.
fn applies_gpos(gpos: &[u8], shaper: ScriptShaper, script: Tag) -> bool {
    is_wanted(shaper, script) && !gpos.is_empty()
}

/// Whether the script that was chosen of `GPOS` is the one that a shaper wants, if it wants one.
fn is_wanted(shaper: ScriptShaper, script: Tag) -> bool {
    match shaper.gpos_script() {
        Some(wanted) => wanted.0 == script.0,
        None => true,
    }
}

/// Whether the table `kern` kerns lines of a direction: where lookups of `GPOS` are not applied, or
/// have no feature of kerning.
fn applies_kern(
    layout: &LayoutPlan,
    direction: Direction,
    has_kern: bool,
    apply_gpos: bool,
) -> bool {
    let tag = kern_tag(direction);
    applies_kern_beside(layout, tag, has_kern, apply_gpos)
}

/// The same, where this is the feature of kerning.
fn applies_kern_beside(layout: &LayoutPlan, tag: Tag, has_kern: bool, apply_gpos: bool) -> bool {
    match layout.feature(tag) {
        Some(feature) => has_kern && !(feature.gpos.is_some() && apply_gpos),
        None => has_kern,
    }
}

/// Whether marks lose their width, by the shaper of the script.
fn loses_width(own: ScriptShaper) -> bool {
    match own.zero_width_marks() {
        ZeroWidthMarks::Never => false,
        ZeroWidthMarks::Early | ZeroWidthMarks::Late => true,
    }
}

/// What the plan asks of the font's table `kern`.
pub(crate) fn kern_layout(face: &Face) -> KernLayout {
    let table = KernTable::new(face.layout.kern);
    KernLayout {
        is_there: table.has_kerning(),
        is_cross_stream: table.has_cross_kerning(),
        has_machine: table.has_machine_kerning(),
    }
}
