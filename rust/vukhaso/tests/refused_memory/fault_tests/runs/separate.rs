// Written by tools/plain_rust from crates/fault_tests. Do not edit.

//! Lists of calls with a separate output, and those that make it separate.

use super::in_place::GLYPH;
use crate::fault_tests::run::{PLAIN, Run};
use vukhaso::internals::runs::Call;

/// A separate output of one glyph.
const SEPARATE: &[Call<'static>] = &[Call::ClearOutput, Call::CopyGlyph];

pub static BECOMING: [Run<'static>; 6] = [
    Run {
        name: "output_glyph where the output becomes separate",
        least: 4,
        before: &[Call::ClearOutput, Call::NextGlyphs(2)],
        calls: &[Call::OutputGlyph(7)],
        ..PLAIN
    },
    Run {
        name: "output_info where the output becomes separate",
        least: 4,
        before: &[Call::ClearOutput, Call::NextGlyphs(2)],
        calls: &[Call::OutputInfo(GLYPH)],
        ..PLAIN
    },
    Run {
        name: "copy_glyph where the output becomes separate",
        least: 4,
        before: &[Call::ClearOutput, Call::NextGlyphs(2)],
        calls: &[Call::CopyGlyph],
        ..PLAIN
    },
    Run {
        name: "replace_glyphs where the output becomes separate",
        least: 4,
        before: &[Call::ClearOutput, Call::NextGlyphs(2)],
        calls: &[Call::ReplaceGlyphs(1, 3, &[7, 8, 9])],
        ..PLAIN
    },
    Run {
        name: "replace_glyphs of several where the output becomes separate",
        least: 4,
        before: &[Call::ClearOutput, Call::NextGlyph],
        calls: &[Call::ReplaceGlyphs(2, 3, &[7, 8, 9])],
        ..PLAIN
    },
    Run {
        name: "replace_glyphs of none where the output becomes separate",
        least: 4,
        before: &[Call::ClearOutput],
        calls: &[Call::ReplaceGlyphs(0, 1, &[7])],
        ..PLAIN
    },
];

pub static SEPARATE_RUNS: [Run<'static>; 13] = [
    Run {
        name: "next_glyph with a separate output",
        least: 4,
        before: SEPARATE,
        calls: &[Call::NextGlyph; 9],
        ..PLAIN
    },
    Run {
        name: "next_glyphs with a separate output",
        least: 4,
        before: SEPARATE,
        calls: &[Call::NextGlyphs(2), Call::NextGlyphs(7)],
        ..PLAIN
    },
    Run {
        name: "replace_glyph with a separate output",
        least: 4,
        before: SEPARATE,
        calls: &[Call::ReplaceGlyph(7); 9],
        ..PLAIN
    },
    Run {
        name: "replace_glyphs with a separate output",
        least: 4,
        before: SEPARATE,
        calls: &[
            Call::ReplaceGlyphs(2, 3, &[7, 8, 9]),
            Call::ReplaceGlyphs(3, 5, &[1, 2, 3, 4, 5]),
            Call::ReplaceGlyphs(2, 3, &[7, 8, 9]),
        ],
        ..PLAIN
    },
    Run {
        name: "output_glyph with a separate output",
        least: 4,
        before: SEPARATE,
        calls: &[Call::OutputGlyph(7); 9],
        ..PLAIN
    },
    Run {
        name: "output_info with a separate output",
        least: 4,
        before: SEPARATE,
        calls: &[Call::OutputInfo(GLYPH); 9],
        ..PLAIN
    },
    Run {
        name: "copy_glyph with a separate output",
        least: 4,
        before: SEPARATE,
        calls: &[Call::CopyGlyph; 9],
        ..PLAIN
    },
    Run {
        name: "move_to forward with a separate output",
        least: 4,
        before: SEPARATE,
        calls: &[Call::MoveTo(9)],
        ..PLAIN
    },
    Run {
        name: "a rewind behind the cursor with a separate output",
        before: &[Call::ClearOutput, Call::CopyGlyph, Call::NextGlyphs(6)],
        calls: &[Call::MoveTo(3), Call::MoveTo(1)],
        ..PLAIN
    },
    Run {
        name: "a rewind past the cursor",
        least: 8,
        before: &[Call::ClearOutput, Call::ReplaceGlyphs(1, 4, &[6, 7, 8, 9])],
        calls: &[Call::MoveTo(0)],
        ..PLAIN
    },
    Run {
        name: "two rewinds past the cursor",
        least: 8,
        before: &[
            Call::ClearOutput,
            Call::ReplaceGlyphs(1, 4, &[6, 7, 8, 9]),
            Call::MoveTo(0),
        ],
        calls: &[
            Call::ReplaceGlyphs(1, 6, &[4, 5, 6, 7, 8, 9]),
            Call::MoveTo(0),
            Call::ReplaceGlyphs(2, 9, &[1, 2, 3, 4, 5, 6, 7, 8, 9]),
            Call::MoveTo(0),
        ],
        ..PLAIN
    },
    Run {
        name: "sync of a separate output",
        least: 8,
        before: &[Call::ClearOutput, Call::ReplaceGlyphs(1, 4, &[6, 7, 8, 9])],
        calls: &[Call::Sync],
        ..PLAIN
    },
    Run {
        name: "sync of a separate output with nothing in it",
        before: &[Call::ClearOutput, Call::CopyGlyph, Call::MoveTo(0)],
        calls: &[Call::Sync],
        ..PLAIN
    },
];
