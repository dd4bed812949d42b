// Written by tools/plain_rust from crates/font_cmap. Do not edit.

//! Segments of codes (OpenType specification, `cmap`, "Format 4").

use crate::font_cmap::arrays::some_glyph;
use crate::font_cmap::runs::{FIRST_COUNT, row_run};
use crate::font_cmap::segment_lists::Segments;

/// The glyph that stands so many places behind the range offset of a row: behind all of the range
/// offsets.
///
/// # Requires
///
/// - `distance < 2 ^ 36`
fn glyph_behind_range_offset(segments: &Segments<'_>, row: u32, distance: usize) -> Option<u16> {
    let place = row as usize + distance;
    if place < segments.count as usize {
        None
    } else {
        segments.id_range_offset(place)
    }
}

/// The glyph of a number with the delta added: what passes 65,535 goes on from 0.
fn with_delta(delta: u16, number: u32) -> Option<u16> {
    some_glyph((u64::from(number) + u64::from(delta)) % 65536)
}

/// A segment: its number, its start, its delta and its range offset.
#[derive(Clone, Copy, Debug)]
struct Segment {
    row: u32,
    start: u32,
    delta: u16,
    range_offset: u16,
}

/// The glyph that a segment gives to a code that it reaches.
fn glyph_in_segment(segments: &Segments<'_>, code: u32, segment: &Segment) -> Option<u16> {
    if code < segment.start {
        return None;
    }
    if segment.range_offset == 0 {
        return with_delta(segment.delta, code);
    }
    let distance = usize::from(segment.range_offset / 2) + (code - segment.start) as usize;
    let number = glyph_behind_range_offset(segments, segment.row, distance)?;
    let glyph = some_glyph(u64::from(number))?;
    with_delta(segment.delta, u32::from(glyph))
}

/// The number of that glyph; 0 where there is none.
fn number_in_segment(segments: &Segments<'_>, code: u32, segment: &Segment) -> u16 {
    glyph_in_segment(segments, code, segment).unwrap_or(0)
}

/// The segment of a row.
fn segment_of(segments: &Segments<'_>, row: u32) -> Option<Segment> {
    let start = u32::from(segments.start_code(row)?);
    let delta = segments.id_delta(row)?;
    let range_offset = segments.id_range_offset(row as usize)?;
    Some(Segment {
        row,
        start,
        delta,
        range_offset,
    })
}

/// The segment that codes have, from one on up to `last`.
#[derive(Clone, Copy, Debug)]
struct SegmentRun {
    segment: Option<Segment>,
    last: u32,
}

impl SegmentRun {
    /// Puts the numbers of the glyphs of codes from one to before another in their places.
    ///
    /// # Requires
    ///
    /// - `end ≤ 128`
    #[inline(always)]
    fn put(
        &self,
        glyphs: &mut [u16; FIRST_COUNT],
        start: usize,
        end: usize,
        segments: &Segments<'_>,
    ) {
        debug_assert!(end <= 128);
        for code in start..end {
            glyphs[code] = match &self.segment {
                Some(segment) => number_in_segment(segments, code as u32, segment),
                None => 0,
            };
        }
    }
}

/// The segment of a code and of those behind it.
#[inline(always)]
fn segment_run(segments: &Segments<'_>, code: u32) -> SegmentRun {
    let run = row_run(segments, segments.count, code);
    let segment = match run.row {
        Some(row) => segment_of(segments, row),
        None => None,
    };
    SegmentRun {
        segment,
        last: run.last,
    }
}

/// The glyph of a code by format 4.
pub(crate) fn segments_glyph(segments: &Segments<'_>, code: u32) -> Option<u16> {
    let run = segment_run(segments, code);
    let segment = run.segment?;
    glyph_in_segment(segments, code, &segment)
}

/// The numbers of the glyphs of the first codes by format 4; 0 where a code has none.
pub(crate) fn first_segments_glyphs(segments: &Segments<'_>) -> [u16; FIRST_COUNT] {
    let mut glyphs = [0; FIRST_COUNT];
    let mut code = 0;
    while code < FIRST_COUNT {
        let run = segment_run(segments, code as u32);
        let end = FIRST_COUNT.min((run.last as usize).saturating_add(1));
        run.put(&mut glyphs, code, end, segments);
        code = end;
    }
    glyphs
}
