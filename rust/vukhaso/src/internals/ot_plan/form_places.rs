// Written by tools/plain_rust from crates/ot_plan. Do not edit.

//! Where the lookups of the features stand that shapers of syllables ask of.

use crate::common::Tag;
use crate::ot_map::LayoutPlan;
use crate::script_syllables::FormFeature;
use core::ops::Range;

/// Where the lookups of each feature that a shaper of syllables asks of stand in the list of a plan.
///
/// # Proved
///
/// ```text
/// ghost Value = { FeaturePlaces }
/// ghost view = { λ places. record {
///   rphf = (places.rphf.start, places.rphf.end);
///   pref = (places.pref.start, places.pref.end);
///   blwf = (places.blwf.start, places.blwf.end);
///   pstf = (places.pstf.start, places.pstf.end);
///   vatu = (places.vatu.start, places.vatu.end);
/// } }
/// ```
#[derive(Debug)]
pub struct FormPlaces {
    rphf: Range<usize>,
    pref: Range<usize>,
    blwf: Range<usize>,
    pstf: Range<usize>,
    vatu: Range<usize>,
}

impl FormPlaces {
    /// Those of a plan.
    ///
    /// # Proved
    ///
    /// ```text
    /// ensures { AreFormsOf layout.now result }
    /// ```
    #[inline]
    pub fn new(layout: &LayoutPlan) -> Self {
        FormPlaces {
            rphf: places_of(layout, b"rphf"),
            pref: places_of(layout, b"pref"),
            blwf: places_of(layout, b"blwf"),
            pstf: places_of(layout, b"pstf"),
            vatu: places_of(layout, b"vatu"),
        }
    }

    /// Those of a feature.
    ///
    /// # Proved
    ///
    /// ```text
    /// ensures { (result.start, result.end) ≡ places_in feature self.now }
    /// ```
    #[inline]
    pub fn of(&self, feature: FormFeature) -> Range<usize> {
        let places = match feature {
            FormFeature::Rphf => &self.rphf,
            FormFeature::Pref => &self.pref,
            FormFeature::Blwf => &self.blwf,
            FormFeature::Pstf => &self.pstf,
            FormFeature::Vatu => &self.vatu,
        };
        places.start..places.end
    }
}

/// Where the lookups stand that are applied in the stage of a feature.
fn places_of(layout: &LayoutPlan, name: &[u8; 4]) -> Range<usize> {
    let tag = Tag::from_bytes(name);
    layout.stage_places(tag)
}
