// Written by tools/plain_rust from crates/shaping_runs. Do not edit.

//! The calls of a buffer as values, and what comes of one.

use crate::buffer::hb_glyph_info_t;

/// A call of a buffer, by the name of the method that it makes, with the same arguments.
#[derive(Clone, Copy, Debug)]
#[non_exhaustive]
pub enum Call<'a> {
    /// Opens an output. Requires that none is open.
    ClearOutput,
    /// Puts the glyph at the cursor out; with no output open only the cursor moves. Requires a glyph there.
    NextGlyph,
    /// Puts this many glyphs at the cursor out; with no output open only the cursor moves. Requires as many glyphs
    /// there.
    NextGlyphs(usize),
    /// Drops the glyph at the cursor; with no output open only the cursor moves. Requires a glyph there.
    SkipGlyph,
    /// Puts the glyph at the cursor out under this id. Requires an open output and a glyph at the cursor.
    ReplaceGlyph(u32),
    /// Merges this many glyphs at the cursor, and puts out copies of the first, as it then is, in place of them, under
    /// this many of these ids. Requires an open output, a glyph at the cursor, as many glyphs there and as many ids.
    ReplaceGlyphs(usize, usize, &'a [u32]),
    /// Puts a copy of the glyph at the cursor out, under this id, or of the last that was put out where none is left to
    /// read; nothing where both sides are empty. Requires an open output.
    OutputGlyph(u32),
    /// Puts this glyph out. Requires an open output.
    OutputInfo(hb_glyph_info_t),
    /// Puts a copy of the glyph at the cursor out. Requires an open output and a glyph at the cursor.
    CopyGlyph,
    /// Moves the cursor to a place of both sides as one list: the glyphs before it are then put out, and the others
    /// left to read. With no output open only the cursor moves. Requires that there are as many glyphs.
    MoveTo(usize),
    /// Makes what was put out and what is left to read the list. Requires an open output.
    Sync,
    /// Drops the glyph at the cursor and keeps its cluster where it is lower than its neighbour's. Requires an open
    /// output and a glyph at the cursor.
    DeleteGlyph,
    /// Merges the clusters of the input from a start to an end. Requires `start <= end <= len`, and with an output open
    /// that the start is not before the cursor.
    MergeClusters(usize, usize),
    /// Merges the clusters of the out side from a start to an end. Requires an open output and
    /// `start <= end <= out_len`.
    MergeOutClusters(usize, usize),
    /// Makes a grapheme of the input one cluster, from a start to an end; at levels 1 and 2 as `UnsafeToBreak` does.
    /// Requires what `MergeClusters` requires.
    MergeGraphemeClusters(usize, usize),
    /// Marks the input's glyphs from a start (the origin) to an end (the length, to which it is cut) that a scan
    /// finds outside the least cluster as unsafe to break and to concatenate. Requires `start <= end`, and with an
    /// output open that the start is not before the cursor.
    UnsafeToBreak(Option<usize>, Option<usize>),
    /// The same of the out side from a start and the input up to an end. With an output open it requires
    /// `start <= out_len` and that the end is not before the cursor, and else `start <= end`.
    UnsafeToBreakFromOutbuffer(Option<usize>, Option<usize>),
    /// Marks the glyphs that `UnsafeToBreak` would mark as safe for a tatweel, where the buffer's flags ask for that,
    /// and else as `UnsafeToBreak` does. Requires what `UnsafeToBreak` requires.
    SafeToInsertTatweel(Option<usize>, Option<usize>),
    /// Marks all of the input from a start to an end as unsafe to concatenate, where the buffer's flags ask for that.
    /// Requires what `UnsafeToBreak` requires.
    UnsafeToConcat(Option<usize>, Option<usize>),
    /// The same of the out side from a start and the input up to an end. Requires what `UnsafeToBreakFromOutbuffer`
    /// requires.
    UnsafeToConcatFromOutbuffer(Option<usize>, Option<usize>),
}

/// What came of a call.
#[derive(Clone, Copy, PartialEq, Eq, Debug)]
pub enum Answer {
    /// The call was made.
    Done,
    /// The call was refused for length, or because an earlier one was.
    Refused,
    /// What the call requires does not hold: nothing changed.
    Outside,
}
