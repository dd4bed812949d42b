//! `hb-ot-shape.h`: the lookups of a plan, and the glyphs that a text may become.

use crate::buffer::hb_buffer_t;
use crate::common::features::hb_feature_t;
use crate::common::languages::shaper_language;
use crate::common::scripts::{hb_script_get_horizontal_direction, shaper_script};
use crate::face::hb_face_t;
use crate::font::hb_font_t;
use crate::ot::layout::{GPOS, GSUB, hb_ot_layout_lookups_substitute_closure};
use crate::set::hb_set_t;
use crate::shape::plan::{hb_shape_plan_create_cached, hb_shape_plan_destroy, hb_shape_plan_t};
use crate::shape::{Shaper, direction_of};
use crate::types::{RIGHT_TO_LEFT, hb_tag_t};
use std::ffi::c_uint;
use std::ptr::{from_ref, null};
use vukhaso::{Feature, ShapePlan};

impl hb_shape_plan_t {
    fn face(&self) -> &hb_face_t {
        // SAFETY: the plan holds a reference of its face.
        unsafe { &*self.face }
    }

    /// The lookups of `GSUB` and of `GPOS`; none where the plan is for another shaper.
    fn lookups(&self) -> (Vec<u16>, Vec<u16>) {
        if self.shaper != Some(Shaper::OpenType) {
            return Default::default();
        }
        let mut settings = self.face().plain_settings();
        settings.coordinates.clone_from(&self.coordinates);
        let features: Vec<Feature> = self.features.iter().map(|feature| feature.of_shaper()).collect();
        let (script, language) = (shaper_script(self.properties.script), shaper_language(self.properties.language));
        let made = self.face().with_shaper(&settings, |face, _| {
            ShapePlan::new(face, direction_of(self.properties.direction), script, language.as_ref(), &features)
        });
        made.map(|plan| plan.lookups()).unwrap_or_default()
    }
}

#[unsafe(no_mangle)]
pub unsafe extern "C" fn hb_ot_shape_plan_collect_lookups(plan: *mut hb_shape_plan_t, tag: hb_tag_t, set: *mut hb_set_t) {
    // SAFETY: HarfBuzz's terms: a plan and a set that are alive.
    let (plan, set) = unsafe { (&*plan, &mut *set) };
    let (substitutions, positions) = plan.lookups();
    let lookups = match tag {
        GSUB => substitutions,
        GPOS => positions,
        _ => return,
    };
    lookups.into_iter().for_each(|lookup| set.add(lookup.into()));
}

/// Adds the glyphs of the characters of a text, and where lines of its script run from right to left those of mirrored characters.
fn add_characters(font: &hb_font_t, buffer: &hb_buffer_t, set: &mut hb_set_t) {
    let is_mirrored = hb_script_get_horizontal_direction(buffer.properties.script) == RIGHT_TO_LEFT;
    for info in &buffer.infos {
        let other = if is_mirrored { buffer.unicode().mirroring(info.codepoint) } else { info.codepoint };
        let glyphs = [info.codepoint, other].map(|character| font.nominal_glyph(character));
        glyphs.into_iter().flatten().for_each(|glyph| set.add(glyph));
    }
}

#[unsafe(no_mangle)]
pub unsafe extern "C" fn hb_ot_shape_glyphs_closure(
    font: *mut hb_font_t,
    buffer: *mut hb_buffer_t,
    features: *const hb_feature_t,
    count: c_uint,
    set: *mut hb_set_t,
) {
    // SAFETY: HarfBuzz's terms: a font, a buffer and a set that are alive, and so many features.
    unsafe {
        let (font, buffer) = (&*font, &*buffer);
        add_characters(font, buffer, &mut *set);
        let face = from_ref(font.face()).cast_mut();
        let shapers = [c"ot".as_ptr(), null()];
        let plan = hb_shape_plan_create_cached(face, &raw const buffer.properties, features, count, shapers.as_ptr());
        let mut lookups = hb_set_t::new();
        hb_ot_shape_plan_collect_lookups(plan, GSUB, &raw mut lookups);
        hb_ot_layout_lookups_substitute_closure(face, &raw const lookups, set);
        hb_shape_plan_destroy(plan);
    }
}
