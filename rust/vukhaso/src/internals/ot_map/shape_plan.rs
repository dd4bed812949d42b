// Written by tools/plain_rust from crates/ot_map. Do not edit.

//! How a text is shaped by a font: HarfBuzz's `hb_ot_shape_plan_t`.

use crate::common::{Direction, Tag};
use crate::memory::AllocError;
use crate::ot_map::builder::{ChosenTable, PlanBuilder};
use crate::ot_map::default_features::{add_first_features, add_last_features, add_user_features};
use crate::ot_map::plan::LayoutPlan;
use crate::text::Feature;

/// What a plan asks of a font's table `kern`.
#[derive(Clone, Copy, PartialEq, Eq, Debug)]
pub struct KernLayout {
    /// Whether the font has the table.
    pub is_there: bool,
    /// Whether a subtable moves glyphs across the line.
    pub is_cross_stream: bool,
    /// Whether a subtable is a state machine.
    pub has_machine: bool,
}

/// What a plan asks of a font.
#[derive(Clone, Copy, Debug)]
pub struct FontLayout<'a> {
    /// The table `GSUB`; empty where the font has none.
    pub gsub: &'a [u8],
    /// The table `GPOS`; empty where the font has none.
    pub gpos: &'a [u8],
    /// Its table `kern`.
    pub kern: KernLayout,
    /// The feature tables of `GSUB` that stand in the place of others, where variations of the font choose them: a
    /// FeatureTableSubstitution table, or an empty one.
    pub gsub_substitutions: &'a [u8],
    /// Those of `GPOS`.
    pub gpos_substitutions: &'a [u8],
}

/// What a plan asks of a text.
#[derive(Clone, Copy, Debug)]
pub struct TextProperties<'a> {
    /// The direction.
    pub direction: Direction,
    /// The OpenType tags of the script, the best first.
    pub scripts: &'a [Tag],
    /// The OpenType tags of the language, the best first.
    pub languages: &'a [Tag],
}

/// How a text is shaped by a font.
#[derive(Debug)]
pub struct OtShapePlan {
    /// The lookups and the features.
    pub layout: LayoutPlan,
    /// The bit of fractions.
    pub frac_mask: u32,
    /// The bit of numerators.
    pub numr_mask: u32,
    /// The bit of denominators.
    pub dnom_mask: u32,
    /// Whether the font makes fractions.
    pub has_frac: bool,
    /// The bit of mirrored forms in lines from right to left.
    pub rtlm_mask: u32,
    /// Whether the font has glyphs for vertical lines.
    pub has_vert: bool,
    /// The bits of kerning.
    pub kern_mask: u32,
    /// Whether kerning was not turned off.
    pub requested_kerning: bool,
    /// Whether the lookups of `GPOS` position the glyphs.
    pub apply_gpos: bool,
    /// Whether the table `kern` does.
    pub apply_kern: bool,
    /// Whether neither does.
    pub apply_fallback_kern: bool,
    /// Whether marks have no width.
    pub zero_marks: bool,
    /// Whether `GPOS` has a feature that attaches marks.
    pub has_gpos_mark: bool,
    /// Whether a mark that loses its width is moved back by it.
    pub adjust_mark_positioning_when_zeroing: bool,
    /// Whether marks are placed by the bounds of glyphs.
    pub fallback_mark_positioning: bool,
}

impl OtShapePlan {
    /// What is chosen of a font for a text, and the features that come before those of a script's shaper.
    ///
    /// # Errors
    ///
    /// `Err(AllocError)` where memory ran out.
    ///
    /// # Proved
    ///
    /// ```text
    /// ensures gsub { IfOk result (λ builder. builder.gsub.script.tag.0
    ///     ≡ (script_of (list_of font.now.gsub.now 4) (map (λ tag. tag.0) text.now.scripts.now)).0) }
    /// ensures gpos { IfOk result (λ builder. builder.gpos.script.tag.0
    ///     ≡ (script_of (list_of font.now.gpos.now 4) (map (λ tag. tag.0) text.now.scripts.now)).0) }
    /// ensures tables { IfOk result (λ builder. AreChosenOf font.now text.now builder) }
    /// ensures asked { IfOk result (λ builder.
    ///     collected builder ≡ with_asks (first_features text.now.direction) nothing_yet) }
    /// ```
    #[inline]
    pub fn begin<'a>(
        font: &FontLayout<'a>,
        text: &TextProperties,
    ) -> Result<PlanBuilder<'a>, AllocError> {
        let gsub = chosen(font.gsub, font.gsub_substitutions, text);
        let gpos = chosen(font.gpos, font.gpos_substitutions, text);
        let mut builder = PlanBuilder::new(gsub, gpos);
        add_first_features(&mut builder, text.direction)?;
        Ok(builder)
    }

    /// Asks for the features that come behind those of a script's shaper, and then for a user's.
    ///
    /// # Errors
    ///
    /// `Err(AllocError)` where memory ran out.
    ///
    /// # Proved
    ///
    /// ```text
    /// ensures { IfOk result
    ///     (λ _. Asks (last_features direction ++ user_features features.now) builder.old builder.new) }
    /// ```
    #[inline]
    pub fn add_common_features(
        builder: &mut PlanBuilder,
        direction: Direction,
        features: &[Feature],
    ) -> Result<(), AllocError> {
        add_last_features(builder, direction)?;
        add_user_features(builder, features)?;
        Ok(())
    }
}

/// What is chosen of a table for a text. These feature tables stand in the place of others.
fn chosen<'a>(table: &'a [u8], substitutions: &'a [u8], text: &TextProperties) -> ChosenTable<'a> {
    ChosenTable::new(table, text.scripts, text.languages).with_substitutions(substitutions)
}
