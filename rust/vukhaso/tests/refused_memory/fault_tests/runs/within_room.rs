// Written by tools/plain_rust from crates/fault_tests. Do not edit.

//! Lists of calls that ask for no memory, since room was made for all that their sides hold: separate outputs, rewinds
//! past the cursor, and what closes them.

use super::in_place::GLYPH;
use crate::fault_tests::run::{PLAIN, Run};
use vukhaso::internals::runs::Call;

pub static WITHIN_ROOM: [Run<'static>; 4] = [
    Run {
        name: "a pass with a separate output within its room",
        ensured: 20,
        calls: &[
            Call::ClearOutput,
            Call::ReplaceGlyphs(1, 4, &[6, 7, 8, 9]),
            Call::NextGlyph,
            Call::OutputGlyph(7),
            Call::ReplaceGlyph(8),
            Call::CopyGlyph,
            Call::OutputInfo(GLYPH),
            Call::ReplaceGlyphs(2, 4, &[6, 7, 8, 9]),
            Call::NextGlyphs(3),
            Call::MoveTo(16),
            Call::Sync,
        ],
        is_placed: true,
        ..PLAIN
    },
    Run {
        name: "rewinds past the cursor within their room",
        ensured: 20,
        calls: &[
            Call::ClearOutput,
            Call::ReplaceGlyphs(1, 4, &[6, 7, 8, 9]),
            Call::MoveTo(0),
            Call::ReplaceGlyphs(1, 6, &[4, 5, 6, 7, 8, 9]),
            Call::MoveTo(0),
            Call::ReplaceGlyphs(2, 4, &[1, 2, 3, 4]),
            Call::MoveTo(0),
            Call::Sync,
        ],
        is_placed: true,
        ..PLAIN
    },
    Run {
        name: "a separate output up to the last place of its room",
        ensured: 12,
        calls: &[
            Call::ClearOutput,
            Call::CopyGlyph,
            Call::CopyGlyph,
            Call::NextGlyphs(10),
            Call::MoveTo(0),
            Call::MoveTo(12),
            Call::Sync,
        ],
        is_placed: true,
        ..PLAIN
    },
    Run {
        name: "two passes within their room",
        ensured: 12,
        calls: &[
            Call::ClearOutput,
            Call::CopyGlyph,
            Call::Sync,
            Call::ClearOutput,
            Call::NextGlyphs(4),
            Call::CopyGlyph,
            Call::Sync,
        ],
        is_placed: true,
        ..PLAIN
    },
];
