//! What stands in whole glyphs once marks are in order. The rows follow HarfBuzz's sort, step by step: each mark that goes
//! back merges the clusters from its new place up to itself, or at levels 2 and 3 marks the glyphs outside their least one.

use crate::Fail;
use crate::passes::texts::buffer_of;
use vukhaso::internals::buffer::{CombiningClasses, hb_buffer_t, hb_glyph_info_t};
use vukhaso::internals::passes::order_marks;

static CLASSES: [(char, u8); 3] = [('\u{301}', 230), ('\u{315}', 232), ('\u{323}', 220)];

/// Marks of falling classes: each goes back to the start of the run.
const FALLING: &str = "a\u{315}\u{301}\u{323}b";

/// Of these only the last goes back, and by one place.
const LAST_GOES_BACK: &str = "a\u{323}\u{315}\u{301}b";

/// A text at a cluster level, and what stands after it with these masks and scratch flags before.
struct Row {
    name: &'static str,
    level: u32,
    text: &'static str,
    mask: u32,
    scratch_flags: u32,
    /// Characters with their clusters and masks.
    want: [(char, u32, u32); 5],
    want_scratch_flags: u32,
}

static ROWS: [Row; 6] = [
    Row {
        name: "each mark takes the cluster of those that it passes, and loses its glyph flags",
        level: 0,
        text: FALLING,
        mask: 0x103,
        scratch_flags: 1,
        want: [
            ('a', 0, 0x103),
            ('\u{323}', 1, 0x100),
            ('\u{301}', 1, 0x100),
            ('\u{315}', 1, 0x103),
            ('b', 7, 0x103),
        ],
        want_scratch_flags: 1,
    },
    Row {
        name: "marks that are not passed keep their clusters",
        level: 0,
        text: LAST_GOES_BACK,
        mask: 0x103,
        scratch_flags: 1,
        want: [
            ('a', 0, 0x103),
            ('\u{323}', 1, 0x103),
            ('\u{301}', 3, 0x100),
            ('\u{315}', 3, 0x103),
            ('b', 7, 0x103),
        ],
        want_scratch_flags: 1,
    },
    Row {
        name: "at level 1 clusters are merged too",
        level: 1,
        text: LAST_GOES_BACK,
        mask: 0x103,
        scratch_flags: 0,
        want: [
            ('a', 0, 0x103),
            ('\u{323}', 1, 0x103),
            ('\u{301}', 3, 0x100),
            ('\u{315}', 3, 0x103),
            ('b', 7, 0x103),
        ],
        want_scratch_flags: 0,
    },
    Row {
        name: "at level 2 a mark that goes back is marked, and keeps its cluster",
        level: 2,
        text: LAST_GOES_BACK,
        mask: 0x100,
        scratch_flags: 1,
        want: [
            ('a', 0, 0x100),
            ('\u{323}', 1, 0x100),
            ('\u{301}', 5, 0x103),
            ('\u{315}', 3, 0x100),
            ('b', 7, 0x100),
        ],
        want_scratch_flags: 0x21,
    },
    Row {
        name: "at level 2 all but the least cluster are marked",
        level: 2,
        text: FALLING,
        mask: 0x100,
        scratch_flags: 0,
        want: [
            ('a', 0, 0x100),
            ('\u{323}', 5, 0x103),
            ('\u{301}', 3, 0x103),
            ('\u{315}', 1, 0x100),
            ('b', 7, 0x100),
        ],
        want_scratch_flags: 0x20,
    },
    Row {
        name: "at level 3 as at level 2",
        level: 3,
        text: LAST_GOES_BACK,
        mask: 0x100,
        scratch_flags: 0,
        want: [
            ('a', 0, 0x100),
            ('\u{323}', 1, 0x100),
            ('\u{301}', 5, 0x103),
            ('\u{315}', 3, 0x100),
            ('b', 7, 0x100),
        ],
        want_scratch_flags: 0x20,
    },
];

/// The buffer of a row, before the pass.
fn buffer_before(row: &Row) -> hb_buffer_t {
    let mut buffer = buffer_of(row.text);
    buffer.reset_masks(row.mask);
    buffer.cluster_level = row.level;
    buffer.scratch_flags = row.scratch_flags;
    buffer
}

/// The buffer of a row, behind the pass.
fn buffer_after(row: &Row, classes: &CombiningClasses<'_>) -> hb_buffer_t {
    let mut buffer = buffer_before(row);
    order_marks(&mut buffer, classes);
    buffer
}

/// The number, the cluster and the mask of the glyph at a place.
fn seen_at(glyphs: &[hb_glyph_info_t], place: usize) -> Option<(u32, u32, u32)> {
    let glyph = glyphs.get(place)?;
    Some((glyph.glyph_id, glyph.cluster, glyph.mask))
}

/// Asserts the glyphs of a row.
fn assert_glyphs(glyphs: &[hb_glyph_info_t], row: &Row) {
    assert_eq!(glyphs.len(), row.want.len(), "{}", row.name);
    for (place, &(c, cluster, mask)) in row.want.iter().enumerate() {
        assert_eq!(
            seen_at(glyphs, place),
            Some((c as u32, cluster, mask)),
            "{}",
            row.name
        );
    }
}

#[test]
fn marks_in_order_are_whole_glyphs() -> Result<(), Fail> {
    let classes = CombiningClasses::new(&CLASSES).ok_or("rows that rise")?;
    for row in &ROWS {
        let buffer = buffer_after(row, &classes);
        assert_glyphs(buffer.info(), row);
        assert_eq!(buffer.scratch_flags, row.want_scratch_flags, "{}", row.name);
    }
    Ok(())
}
