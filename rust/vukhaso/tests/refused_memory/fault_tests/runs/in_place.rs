// Written by tools/plain_rust from crates/fault_tests. Do not edit.

//! Lists of calls that ask for no memory: those that leave the output in the storage of the input, and those that only
//! drop, merge or mark glyphs.

use crate::fault_tests::run::{PLAIN, Run};
use vukhaso::internals::glyph::hb_glyph_info_t;
use vukhaso::internals::runs::Call;

/// A glyph of the caller's.
pub const GLYPH: hb_glyph_info_t = hb_glyph_info_t {
    glyph_id: 5,
    mask: 9,
    cluster: 6,
    var1: 1,
    var2: 2,
};

pub static IN_PLACE: [Run<'static>; 20] = [
    Run {
        name: "clear_output",
        calls: &[Call::ClearOutput],
        ..PLAIN
    },
    Run {
        name: "next_glyph in place",
        before: &[Call::ClearOutput],
        calls: &[Call::NextGlyph, Call::SkipGlyph, Call::NextGlyph],
        ..PLAIN
    },
    Run {
        name: "next_glyphs in place",
        before: &[Call::ClearOutput],
        calls: &[Call::NextGlyphs(2), Call::SkipGlyph, Call::NextGlyphs(3)],
        ..PLAIN
    },
    Run {
        name: "skip_glyph in place",
        before: &[Call::ClearOutput],
        calls: &[Call::SkipGlyph, Call::SkipGlyph],
        ..PLAIN
    },
    Run {
        name: "replace_glyph in place",
        before: &[Call::ClearOutput],
        calls: &[
            Call::ReplaceGlyph(7),
            Call::SkipGlyph,
            Call::ReplaceGlyph(8),
        ],
        ..PLAIN
    },
    Run {
        name: "replace_glyphs in place",
        before: &[Call::ClearOutput],
        calls: &[
            Call::ReplaceGlyphs(2, 1, &[7]),
            Call::ReplaceGlyphs(1, 2, &[8, 9]),
            Call::ReplaceGlyphs(3, 3, &[7, 8, 9]),
        ],
        ..PLAIN
    },
    Run {
        name: "output_glyph in place",
        before: &[Call::ClearOutput, Call::SkipGlyph, Call::SkipGlyph],
        calls: &[Call::OutputGlyph(7), Call::OutputGlyph(8)],
        ..PLAIN
    },
    Run {
        name: "output_info in place",
        before: &[Call::ClearOutput, Call::SkipGlyph, Call::SkipGlyph],
        calls: &[Call::OutputInfo(GLYPH), Call::OutputInfo(GLYPH)],
        ..PLAIN
    },
    Run {
        name: "copy_glyph in place",
        before: &[Call::ClearOutput, Call::SkipGlyph, Call::SkipGlyph],
        calls: &[Call::CopyGlyph, Call::CopyGlyph],
        ..PLAIN
    },
    Run {
        name: "delete_glyph in place",
        before: &[Call::ClearOutput],
        calls: &[Call::DeleteGlyph, Call::NextGlyph, Call::DeleteGlyph],
        ..PLAIN
    },
    Run {
        name: "move_to in place",
        before: &[Call::ClearOutput],
        calls: &[
            Call::MoveTo(5),
            Call::SkipGlyph,
            Call::MoveTo(2),
            Call::MoveTo(4),
        ],
        ..PLAIN
    },
    Run {
        name: "sync in place",
        before: &[Call::ClearOutput],
        calls: &[
            Call::NextGlyphs(2),
            Call::Sync,
            Call::ClearOutput,
            Call::SkipGlyph,
            Call::NextGlyph,
            Call::Sync,
        ],
        ..PLAIN
    },
    Run {
        name: "a rewind in place",
        before: &[Call::ClearOutput, Call::SkipGlyph, Call::NextGlyphs(6)],
        calls: &[Call::MoveTo(1), Call::NextGlyph, Call::MoveTo(0)],
        ..PLAIN
    },
    Run {
        name: "calls with no output open",
        calls: &[
            Call::NextGlyph,
            Call::NextGlyphs(2),
            Call::SkipGlyph,
            Call::MoveTo(1),
        ],
        ..PLAIN
    },
    Run {
        name: "merges and flag calls with no output open",
        calls: &MERGES_AND_FLAGS,
        ..PLAIN
    },
    Run {
        name: "merges and flag calls in place",
        before: &[Call::ClearOutput, Call::SkipGlyph, Call::NextGlyphs(2)],
        calls: &MERGES_AND_FLAGS_OF_BOTH_SIDES,
        ..PLAIN
    },
    Run {
        name: "merges and flag calls with a separate output",
        before: &[Call::ClearOutput, Call::CopyGlyph, Call::NextGlyphs(3)],
        calls: &MERGES_AND_FLAGS_OF_BOTH_SIDES,
        ..PLAIN
    },
    Run {
        name: "skip_glyph and delete_glyph with a separate output",
        before: &[Call::ClearOutput, Call::CopyGlyph],
        calls: &[Call::SkipGlyph, Call::DeleteGlyph, Call::SkipGlyph],
        ..PLAIN
    },
    Run {
        name: "clear_positions after a text",
        is_placed: true,
        ..PLAIN
    },
    Run {
        name: "clear_positions after sync of a separate output",
        before: &[
            Call::ClearOutput,
            Call::ReplaceGlyphs(1, 4, &[6, 7, 8, 9]),
            Call::Sync,
        ],
        is_placed: true,
        ..PLAIN
    },
];

const MERGES_AND_FLAGS: [Call<'static>; 7] = [
    Call::MergeClusters(1, 3),
    Call::MergeGraphemeClusters(4, 6),
    Call::UnsafeToBreak(Some(2), Some(6)),
    Call::UnsafeToBreakFromOutbuffer(None, Some(7)),
    Call::SafeToInsertTatweel(None, None),
    Call::UnsafeToConcat(Some(1), Some(9)),
    Call::UnsafeToConcatFromOutbuffer(Some(3), None),
];

const MERGES_AND_FLAGS_OF_BOTH_SIDES: [Call<'static>; 8] = [
    Call::MergeClusters(4, 6),
    Call::MergeGraphemeClusters(6, 8),
    Call::MergeOutClusters(0, 2),
    Call::UnsafeToBreak(Some(5), Some(8)),
    Call::UnsafeToBreakFromOutbuffer(None, Some(7)),
    Call::SafeToInsertTatweel(Some(4), None),
    Call::UnsafeToConcat(Some(5), Some(9)),
    Call::UnsafeToConcatFromOutbuffer(Some(1), None),
];
