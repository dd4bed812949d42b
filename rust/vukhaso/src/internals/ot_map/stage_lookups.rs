// Written by tools/plain_rust from crates/ot_map. Do not edit.

//! The lookups of features, stage by stage: in the order of their numbers, each once in a stage.

use crate::font_tables::bytes::u16_at;
use crate::memory::{AllocError, Vec};
use crate::ot_map::bits::GLOBAL_MASK;
use crate::ot_map::builder::ChosenTable;
use crate::ot_map::choice::required_feature;
use crate::ot_map::plan::{Pause, PlannedFeature, PlannedLookup, Stage};
use crate::ot_map::request::FeatureFlags;
use crate::ot_map::tables::feature_lookup_count;

/// How many lookups the features of a plan may list in each table, together: HarfBuzz's `HB_MAX_LOOKUP_VISIT_COUNT`. What comes
/// after is left out.
pub const MOST_LOOKUPS: usize = 35_000;

/// The lookups of features that are collected for a table.
#[derive(Debug)]
struct Collector {
    lookups: Vec<PlannedLookup>,
    /// How many more may be listed.
    left: usize,
}

impl Collector {
    /// No lookups yet.
    fn new() -> Self {
        Collector {
            lookups: Vec::new(),
            left: MOST_LOOKUPS,
        }
    }

    /// Adds the lookups of a feature of a table, for the glyphs that have one of these bits.
    fn add(
        &mut self,
        table: &ChosenTable,
        feature: Option<u16>,
        mask: u32,
        flags: FeatureFlags,
    ) -> Result<(), AllocError> {
        match feature {
            Some(feature) => self.add_listed(
                table.lists.lookup_count,
                table.lists.feature_table(feature),
                mask,
                flags,
            ),
            None => Ok(()),
        }
    }

    /// Adds the lookups that a feature table lists, as far as the table has so many.
    fn add_listed(
        &mut self,
        count: u16,
        feature: &[u8],
        mask: u32,
        flags: FeatureFlags,
    ) -> Result<(), AllocError> {
        let visited = feature_lookup_count(feature).min(self.left);
        for place in 0..visited {
            self.left -= 1;
            let index = u16_at(feature, 4 + 2 * place).unwrap_or(0);
            if index < count {
                self.lookups.push(lookup_with(mask, flags, index))?;
            }
        }
        Ok(())
    }

    /// Adds the lookups of the feature that the language system requires.
    fn add_required(&mut self, table: &ChosenTable) -> Result<(), AllocError> {
        self.add(
            table,
            required_feature(table.system),
            GLOBAL_MASK,
            FeatureFlags::NONE,
        )
    }

    /// Adds the lookups of a feature of `GSUB`, where it is applied in a stage.
    fn add_in_stage(
        &mut self,
        table: &ChosenTable,
        feature: &PlannedFeature,
        stage: usize,
    ) -> Result<(), AllocError> {
        if feature.stage == stage {
            self.add(table, feature.gsub, feature.bits.mask(), feature.flags)
        } else {
            Ok(())
        }
    }

    /// Adds the lookups of features of `GSUB` that are applied in a stage.
    fn add_features(
        &mut self,
        table: &ChosenTable,
        features: &[PlannedFeature],
        stage: usize,
    ) -> Result<(), AllocError> {
        for feature in features {
            self.add_in_stage(table, feature, stage)?;
        }
        Ok(())
    }

    /// Adds all lookups of a stage.
    fn add_stage(
        &mut self,
        table: &ChosenTable,
        required_stage: usize,
        features: &[PlannedFeature],
        stage: usize,
    ) -> Result<(), AllocError> {
        self.add_required_in(table, required_stage, stage)?;
        self.add_features(table, features, stage)?;
        Ok(())
    }

    /// Adds the lookups of the feature that the language system of `GSUB` requires, where it is applied in
    /// a stage.
    fn add_required_in(
        &mut self,
        table: &ChosenTable,
        required_stage: usize,
        stage: usize,
    ) -> Result<(), AllocError> {
        if stage == required_stage {
            self.add_required(table)
        } else {
            Ok(())
        }
    }

    /// Adds the lookups of a feature of `GPOS`.
    fn add_in_positions(
        &mut self,
        table: &ChosenTable,
        feature: &PlannedFeature,
    ) -> Result<(), AllocError> {
        self.add(table, feature.gpos, feature.bits.mask(), feature.flags)
    }

    /// Adds the lookups of features of `GPOS`.
    fn add_positions(
        &mut self,
        table: &ChosenTable,
        features: &[PlannedFeature],
    ) -> Result<(), AllocError> {
        for feature in features {
            self.add_in_positions(table, feature)?;
        }
        Ok(())
    }

    /// Adds all lookups of a stage, in order and each once.
    fn merge_stage(
        &mut self,
        table: &ChosenTable,
        required_stage: usize,
        features: &[PlannedFeature],
        stage: usize,
    ) -> Result<(), AllocError> {
        let start = self.lookups.len();
        self.add_stage(table, required_stage, features, stage)?;
        self.merge_from(start);
        Ok(())
    }

    /// Puts the lookups from a place on in order, and each that is there more than once together.
    fn merge_from(&mut self, start: usize) {
        let start = start.min(self.lookups.len());
        let len = merged_from(self.lookups.as_mut_slice(), start);
        self.lookups.truncate(len);
    }
}

/// Puts the lookups from a place on in order, and each that is there more than once together: how many
/// there are then.
///
/// # Requires
///
/// - `start ≤ length lookups.old`
fn merged_from(lookups: &mut [PlannedLookup], start: usize) -> usize {
    debug_assert!(start <= lookups.len());
    let len = merged(&mut lookups[start..]);
    start + len
}

/// A lookup, applied as the flags of its feature say.
fn lookup_with(mask: u32, flags: FeatureFlags, index: u16) -> PlannedLookup {
    PlannedLookup {
        index,
        mask,
        auto_zwnj: !flags.manual_zwnj,
        auto_zwj: !flags.manual_zwj,
        random: flags.random,
        per_syllable: flags.per_syllable,
    }
}

/// Sorts lookups by their numbers, and puts those of the same number together, in the first places: how
/// many they are then.
fn merged(lookups: &mut [PlannedLookup]) -> usize {
    lookups.sort_unstable_by_key(|lookup| lookup.index);
    put_together(lookups)
}

/// Puts the lookups of the same number together, in the first places: how many they are then. They are
/// in the order of their numbers.
fn put_together(lookups: &mut [PlannedLookup]) -> usize {
    let mut len = 0;
    for place in 0..lookups.len() {
        len = put_next(lookups, len, place);
    }
    len
}

/// Puts the lookup at a place behind the first ones, or together with the last of these: how many these
/// are then.
///
/// # Requires
///
/// - `place: place < length lookups.old`
/// - `within: len ≤ place`
fn put_next(lookups: &mut [PlannedLookup], len: usize, place: usize) -> usize {
    debug_assert!(place < lookups.len());
    let lookup = lookups[place];
    if len == 0 {
        lookups[0] = lookup;
        return 1;
    }
    if lookups[len - 1].index == lookup.index {
        lookups[len - 1].join(&lookup);
        len
    } else {
        lookups[len] = lookup;
        len + 1
    }
}

/// The lookups of substitution, and its stages: one before each pause.
pub(crate) fn gsub_lookups(
    table: &ChosenTable,
    required_stage: usize,
    features: &[PlannedFeature],
    pauses: &[Pause],
) -> Result<(Vec<PlannedLookup>, Vec<Stage>), AllocError> {
    let mut all = Collector::new();
    let mut stages = Vec::new();
    for stage in 0..pauses.len() {
        all.merge_stage(table, required_stage, features, stage)?;
        stages.push(Stage {
            end: all.lookups.len(),
            pause: pauses[stage],
        })?;
    }
    let Collector { lookups, .. } = all;
    Ok((lookups, stages))
}

/// The lookups of positioning.
pub(crate) fn gpos_lookups(
    table: &ChosenTable,
    features: &[PlannedFeature],
) -> Result<Vec<PlannedLookup>, AllocError> {
    let mut all = Collector::new();
    all.add_required(table)?;
    all.add_positions(table, features)?;
    all.merge_from(0);
    let Collector { lookups, .. } = all;
    Ok(lookups)
}
