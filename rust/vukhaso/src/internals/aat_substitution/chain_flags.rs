// Written by tools/plain_rust from crates/aat_substitution. Do not edit.

//! The flags of chains in the parts of a text: HarfBuzz's `hb_aat_map_t`.

use crate::aat_substitution::selection::{
    LETTER_CASE, LOWER_CASE, LOWER_CASE_SMALL_CAPS, SelectedFeature,
};
use crate::aat_tables::{Chain, Metamorphosis};
use crate::memory::{AllocError, Vec};

/// The setting of the old feature of letters that makes small capitals of them.
const SMALL_CAPS: u16 = 3;

/// The flags of each chain, in each part of the text.
#[derive(Debug)]
pub struct ChainFlags {
    /// The last cluster of each part, in order: the last part goes on for ever.
    ends: Vec<u32>,
    /// The flags of all chains in the first part, and then those in the next one.
    flags: Vec<u32>,
    /// How many chains there are.
    chain_count: usize,
}

impl ChainFlags {
    /// The flags of the chains of a table, where these features are selected.
    ///
    /// # Errors
    ///
    /// `Err(AllocError)` where memory ran out.
    ///
    /// # Proved
    ///
    /// That it returns.
    #[inline]
    pub fn new(table: &Metamorphosis, selected: &[SelectedFeature]) -> Result<Self, AllocError> {
        let mut flags = ChainFlags {
            ends: Vec::new(),
            flags: Vec::new(),
            chain_count: table.chains.len(),
        };
        let mut starts = starts_of(selected)?;
        starts.sort_unstable();
        flags.add_parts(table, selected, starts.as_slice())?;
        Ok(flags)
    }

    /// Adds the parts that begin at these clusters, in order.
    fn add_parts(
        &mut self,
        table: &Metamorphosis,
        selected: &[SelectedFeature],
        starts: &[u32],
    ) -> Result<(), AllocError> {
        let mut start = 0;
        for next in starts {
            if *next > start {
                self.add_part(table, selected, start, *next - 1)?;
                start = *next;
            }
        }
        if start < u32::MAX || self.ends.is_empty() {
            self.add_part(table, selected, start, u32::MAX)?;
        }
        Ok(())
    }

    /// Adds the part from a cluster up to another.
    fn add_part(
        &mut self,
        table: &Metamorphosis,
        selected: &[SelectedFeature],
        start: u32,
        end: u32,
    ) -> Result<(), AllocError> {
        for chain in &table.chains {
            self.flags.push(flags_of(chain, selected, start))?;
        }
        self.ends.push(end)?;
        Ok(())
    }

    /// How many parts the text has.
    ///
    /// # Proved
    ///
    /// ```text
    /// ensures { result ≡ vec_len self.now.ends }
    /// ```
    #[inline]
    pub fn part_count(&self) -> usize {
        self.ends.len()
    }

    /// The part that a cluster is in.
    ///
    /// # Proved
    ///
    /// That it returns.
    #[inline]
    pub fn part_of(&self, cluster: u32) -> usize {
        self.ends.partition_point(|end| *end < cluster)
    }

    /// The flags of a chain in a part.
    ///
    /// # Proved
    ///
    /// ```text
    /// ensures { result ≡ flags_in self.now chain part }
    /// ```
    #[inline]
    pub fn flags(&self, chain: usize, part: usize) -> u32 {
        let place = part.saturating_mul(self.chain_count).saturating_add(chain);
        self.flags.get(place).copied().unwrap_or(0)
    }

    /// Whether one of these flags of a chain is on in some part.
    ///
    /// # Proved
    ///
    /// That it returns.
    #[inline]
    pub fn has_any(&self, chain: usize, flags: u32) -> bool {
        for part in 0..self.ends.len() {
            if self.flags(chain, part) & flags != 0 {
                return true;
            }
        }
        false
    }
}

/// The clusters at which features begin or end.
fn starts_of(selected: &[SelectedFeature]) -> Result<Vec<u32>, AllocError> {
    let mut starts = Vec::new();
    for feature in selected {
        if feature.start != feature.end {
            starts.push(feature.start)?;
            starts.push(feature.end)?;
        }
    }
    Ok(starts)
}

/// The flags of a chain in the part from a cluster on.
fn flags_of(chain: &Chain, selected: &[SelectedFeature], start: u32) -> u32 {
    let mut flags = chain.default_flags;
    for row in 0..chain.feature_count() {
        if let Some(feature) = chain.feature(row) {
            if is_asked_for(selected, start, feature.kind, feature.setting) {
                flags = flags & feature.disable | feature.enable;
            }
        }
    }
    flags
}

/// Whether a setting is selected from a cluster on. Small capitals also count by the old feature of
/// letters.
fn is_asked_for(selected: &[SelectedFeature], start: u32, kind: u16, setting: u16) -> bool {
    is_selected(selected, start, kind, setting)
        || kind == LETTER_CASE
            && setting == SMALL_CAPS
            && is_selected(selected, start, LOWER_CASE, LOWER_CASE_SMALL_CAPS)
}

/// Whether a setting is selected from a cluster on: of the settings that turn the same thing on or off,
/// the first one counts.
fn is_selected(selected: &[SelectedFeature], start: u32, kind: u16, setting: u16) -> bool {
    let setting = u32::from(setting);
    for feature in selected {
        if feature.is_for(start) && feature.is_like(kind, setting) {
            return feature.setting == setting;
        }
    }
    false
}
