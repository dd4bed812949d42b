// Written by tools/plain_rust from crates/shaping_bench. Do not edit.

//! Passes of calls over a list of glyphs, each as one value.

use crate::shaping_bench::{lists, ranges, walks};
use vukhaso::internals::buffer::hb_buffer_t;
use vukhaso::memory::AllocError;

/// A pass of calls over a list of glyphs.
#[derive(Clone, Copy, PartialEq, Eq, Debug)]
pub enum Pass {
    NextGlyphSync,
    NextGlyphsSync,
    Ligatures,
    Decompositions,
    Rewinds,
    RewindsBehind,
    RewindsSeparate,
    RewindsPastCursor,
    MergeSliding,
    MergePairs,
    MergePairsFalling,
    MergeGraphemes,
    UnsafeSliding,
    UnsafeWindows,
    DeleteThird,
    DeleteThirdInplace,
    Reverse,
    ReverseWithPositions,
    ReverseGroups,
    GroupEnds,
    TenMasks,
}

/// In which order the cluster numbers of a list stand.
#[derive(Clone, Copy, Debug)]
pub enum Clusters {
    /// Each glyph is a cluster of its own.
    Single,
    /// Three glyphs share a cluster.
    Triple,
    /// As `Single`, in falling order.
    Falling,
}

impl Clusters {
    /// The cluster of the glyph at place `i` of `size`.
    ///
    /// # Proved
    ///
    /// That it returns.
    #[inline]
    pub fn number(self, i: usize, size: usize) -> u32 {
        let number = match self {
            Clusters::Single => i,
            Clusters::Triple => i / 3,
            Clusters::Falling => size.saturating_sub(i),
        };
        u32::try_from(number).unwrap_or(u32::MAX)
    }
}

impl Pass {
    /// The clusters of the list that the pass goes over.
    ///
    /// # Proved
    ///
    /// That it returns.
    #[inline]
    pub fn clusters(self) -> Clusters {
        match self {
            Pass::MergePairsFalling => Clusters::Falling,
            Pass::ReverseGroups | Pass::GroupEnds => Clusters::Triple,
            _ => Clusters::Single,
        }
    }

    /// Whether the glyphs have positions.
    ///
    /// # Proved
    ///
    /// That it returns.
    #[inline]
    pub fn has_positions(self) -> bool {
        matches!(self, Pass::DeleteThirdInplace | Pass::ReverseWithPositions)
    }

    /// How often a run goes over the list.
    ///
    /// # Proved
    ///
    /// That it returns.
    #[inline]
    pub fn times(self) -> usize {
        match self {
            Pass::NextGlyphsSync => walks::BULK_PASSES,
            _ => 1,
        }
    }

    /// Makes the calls, and gives a number that they decide.
    ///
    /// # Requires
    ///
    /// That no output is open.
    ///
    /// - `buffer.old.have_output ≡ false`
    ///
    /// # Errors
    ///
    /// `Ok(None)` where one was refused. `Err(AllocError)` where memory ran out.
    ///
    /// # Proved
    ///
    /// That it returns.
    pub fn run(self, buffer: &mut hb_buffer_t) -> Result<Option<usize>, AllocError> {
        debug_assert!(!buffer.have_output());
        let done = match self {
            Pass::NextGlyphSync => walks::next_glyph_sync(buffer)?,
            Pass::NextGlyphsSync => walks::next_glyphs_sync(buffer)?,
            Pass::Decompositions => walks::decompositions(buffer)?,
            Pass::Ligatures => walks::ligatures(buffer)?,
            Pass::Rewinds => walks::rewinds(buffer)?,
            Pass::RewindsBehind => walks::rewinds_behind(buffer)?,
            Pass::RewindsSeparate => walks::rewinds_separate(buffer)?,
            Pass::RewindsPastCursor => walks::rewinds_past_cursor(buffer)?,
            Pass::DeleteThird => walks::delete_third(buffer)?,
            Pass::GroupEnds => return Ok(Some(lists::group_ends(buffer))),
            _ => {
                self.run_in_place(buffer);
                true
            }
        };
        Ok(done.then_some(buffer.len()))
    }

    /// Makes the calls of a pass that opens no output and changes glyphs, and none of any other pass.
    ///
    /// # Requires
    ///
    /// - `buffer.old.have_output ≡ false`
    fn run_in_place(self, buffer: &mut hb_buffer_t) {
        debug_assert!(!buffer.have_output());
        match self {
            Pass::MergeSliding => ranges::merge_sliding(buffer),
            Pass::MergePairs | Pass::MergePairsFalling => ranges::merge_pairs(buffer),
            Pass::MergeGraphemes => ranges::merge_graphemes(buffer),
            Pass::UnsafeSliding => ranges::unsafe_sliding(buffer),
            Pass::UnsafeWindows => ranges::unsafe_windows(buffer),
            Pass::DeleteThirdInplace => lists::delete_third_inplace(buffer),
            Pass::Reverse | Pass::ReverseWithPositions => buffer.reverse(),
            Pass::ReverseGroups => lists::reverse_groups(buffer),
            Pass::TenMasks => lists::ten_masks(buffer),
            _ => {}
        }
    }
}
