// Written by tools/plain_rust from crates/fault_tests. Do not edit.

//! Lists of calls from the text on, and room that is made ahead.

use crate::fault_tests::run::{PLAIN, Run};
use vukhaso::internals::runs::Call;

/// A run over two glyphs.
const AB: Run<'static> = Run {
    least: 4,
    text: "AB",
    ..PLAIN
};

pub static WHOLE: [Run<'static>; 9] = [
    Run {
        name: "one is dropped, three are put out and all taken back, then sync",
        text: "ZABCD",
        calls: &[
            Call::ClearOutput,
            Call::SkipGlyph,
            Call::NextGlyph,
            Call::NextGlyph,
            Call::NextGlyph,
            Call::MoveTo(0),
            Call::Sync,
        ],
        ..PLAIN
    },
    Run {
        name: "one is replaced by three, which are taken back",
        calls: &[
            Call::ClearOutput,
            Call::ReplaceGlyphs(1, 3, &[1, 2, 3]),
            Call::MoveTo(0),
        ],
        ..AB
    },
    Run {
        name: "one is replaced by three, which may not be taken back",
        max_len: 3,
        calls: &[
            Call::ClearOutput,
            Call::ReplaceGlyphs(1, 3, &[1, 2, 3]),
            Call::MoveTo(0),
            Call::Sync,
            Call::SkipGlyph,
        ],
        ..AB
    },
    Run {
        name: "a rewind over glyphs that overlap",
        text: "ZYABCDE",
        calls: &[
            Call::ClearOutput,
            Call::SkipGlyph,
            Call::SkipGlyph,
            Call::NextGlyph,
            Call::NextGlyph,
            Call::NextGlyph,
            Call::NextGlyph,
            Call::NextGlyph,
            Call::MoveTo(2),
        ],
        ..PLAIN
    },
    Run {
        name: "three are taken back past the cursor, and put out again",
        calls: &[
            Call::ClearOutput,
            Call::ReplaceGlyphs(1, 3, &[1, 2, 3]),
            Call::MoveTo(0),
            Call::DeleteGlyph,
            Call::NextGlyph,
            Call::MoveTo(3),
        ],
        ..AB
    },
    Run {
        name: "a ligature and two glyphs after it",
        calls: &[
            Call::ClearOutput,
            Call::ReplaceGlyphs(2, 1, &[9]),
            Call::OutputGlyph(7),
            Call::OutputGlyph(8),
            Call::Sync,
        ],
        is_placed: true,
        ..AB
    },
    Run {
        name: "ensure",
        least: 8,
        rooms: &[3, 12, 40, 90],
        is_placed: true,
        ..PLAIN
    },
    Run {
        name: "ensure up to the limit, and calls after it",
        least: 8,
        max_len: 24,
        rooms: &[24],
        calls: &[
            Call::ClearOutput,
            Call::ReplaceGlyphs(1, 4, &[6, 7, 8, 9]),
            Call::MoveTo(1),
            Call::Sync,
        ],
        is_placed: true,
        ..PLAIN
    },
    Run {
        name: "ensure past the limit, and calls after it",
        least: 8,
        max_len: 24,
        rooms: &[24, 25],
        calls: &[
            Call::ClearOutput,
            Call::ReplaceGlyphs(1, 4, &[6, 7, 8, 9]),
            Call::MoveTo(1),
            Call::Sync,
        ],
        ..PLAIN
    },
];
