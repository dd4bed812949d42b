// Written by tools/plain_rust from crates/shaping_bench. Do not edit.

//! The workloads by name.

use crate::shaping_bench::pass::Pass;
use crate::shaping_bench::shaper_passes::ShaperPass;

/// What is measured.
#[derive(Clone, Copy, Debug)]
pub enum Workload {
    /// A text that is pushed into a new buffer.
    NewText,
    /// A text that is pushed into a buffer that had it before.
    ReusedText,
    /// A pass of calls over a list of glyphs.
    Calls(Pass),
    /// The text of glyphs by their numbers, with clusters, and with positions or without.
    Serialized { positions: bool },
    /// A pass of a shaper over a list of glyphs.
    Shaping(ShaperPass),
    /// Texts of features.
    Features,
    /// Tags of scripts and languages, by a table with one row or a long one.
    Tags { is_long: bool },
}

impl Workload {
    /// How often a run goes over its glyphs, texts or pairs.
    ///
    /// # Proved
    ///
    /// That it returns.
    #[inline]
    pub fn times(self) -> usize {
        match self {
            Workload::Calls(pass) => pass.times(),
            _ => 1,
        }
    }
}

/// Every workload with its name.
pub static WORKLOADS: [(&str, Workload); 33] = [
    ("push_str_new", Workload::NewText),
    ("push_str_reused", Workload::ReusedText),
    ("next_glyph_sync", Workload::Calls(Pass::NextGlyphSync)),
    ("next_glyphs_sync", Workload::Calls(Pass::NextGlyphsSync)),
    ("ligature_2_1", Workload::Calls(Pass::Ligatures)),
    ("decompose_1_2", Workload::Calls(Pass::Decompositions)),
    ("rewind_8_4_inplace", Workload::Calls(Pass::Rewinds)),
    ("rewind_8_4_behind", Workload::Calls(Pass::RewindsBehind)),
    (
        "rewind_8_4_separate",
        Workload::Calls(Pass::RewindsSeparate),
    ),
    (
        "rewind_past_cursor",
        Workload::Calls(Pass::RewindsPastCursor),
    ),
    (
        "merge_clusters_sliding",
        Workload::Calls(Pass::MergeSliding),
    ),
    ("merge_clusters_pairs", Workload::Calls(Pass::MergePairs)),
    (
        "merge_clusters_pairs_falling",
        Workload::Calls(Pass::MergePairsFalling),
    ),
    (
        "merge_grapheme_clusters_pairs",
        Workload::Calls(Pass::MergeGraphemes),
    ),
    (
        "unsafe_to_break_sliding4",
        Workload::Calls(Pass::UnsafeSliding),
    ),
    (
        "unsafe_to_break_windows4",
        Workload::Calls(Pass::UnsafeWindows),
    ),
    ("delete_glyph_third", Workload::Calls(Pass::DeleteThird)),
    (
        "delete_inplace_third",
        Workload::Calls(Pass::DeleteThirdInplace),
    ),
    ("reverse", Workload::Calls(Pass::Reverse)),
    (
        "reverse_with_positions",
        Workload::Calls(Pass::ReverseWithPositions),
    ),
    ("reverse_groups", Workload::Calls(Pass::ReverseGroups)),
    ("group_end", Workload::Calls(Pass::GroupEnds)),
    ("set_masks_10", Workload::Calls(Pass::TenMasks)),
    (
        "serialize_no_names",
        Workload::Serialized { positions: true },
    ),
    (
        "serialize_ids_clusters",
        Workload::Serialized { positions: false },
    ),
    ("decompose_all", Workload::Shaping(ShaperPass::DecomposeAll)),
    ("order_marks", Workload::Shaping(ShaperPass::OrderMarks)),
    ("compose_marks", Workload::Shaping(ShaperPass::ComposeMarks)),
    (
        "hide_default_ignorables",
        Workload::Shaping(ShaperPass::HideDefaultIgnorables),
    ),
    ("line_ends", Workload::Shaping(ShaperPass::LineEnds)),
    ("features", Workload::Features),
    ("tags_1_row", Workload::Tags { is_long: false }),
    ("tags_long_table", Workload::Tags { is_long: true }),
];
