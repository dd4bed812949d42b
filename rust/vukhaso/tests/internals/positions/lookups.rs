//! Lookups of `GPOS` and the table `kern` over small tables. What is expected follows from the OpenType specification, and is what
//! HarfBuzz makes of the same tables.

use crate::positions::bytes::bytes_of;
use vukhaso::internals::buffer::{UnicodeBuffer, hb_buffer_t, hb_glyph_info_t};
use vukhaso::internals::common::Direction;
use vukhaso::internals::font_tables::bytes::tail;
use vukhaso::internals::font_tables::gdef::Gdef;
use vukhaso::internals::font_tables::scale::Scale;
use vukhaso::internals::font_variations::Deltas;
use vukhaso::internals::glyph::GlyphPosition;
use vukhaso::internals::ot_attachments::{position_finish_offsets, position_start};
use vukhaso::internals::ot_gpos::{Setting, position};
use vukhaso::internals::ot_gpos_tables::contour_points::NoPoints;
use vukhaso::internals::ot_gpos_tables::instance::Instance;
use vukhaso::internals::ot_gpos_tables::kern_table::KernTable;
use vukhaso::internals::ot_kern::kern;
use vukhaso::internals::ot_layout::budget::Budget;
use vukhaso::internals::ot_layout::search::Search;
use vukhaso::internals::ot_layout::skipping_iterator::LookupOptions;
use vukhaso::internals::ot_lookups::lookup_list::LookupList;
use vukhaso::memory::{AllocError, Vec};

/// The bits of the only feature.
const OPTIONS: LookupOptions = LookupOptions {
    mask: 8,
    auto_zwnj: true,
    auto_zwj: true,
    per_syllable: false,
    random: false,
};

/// A table `GPOS` with one lookup of this kind and flag, which has one subtable.
fn gpos_of(kind: u16, flag: u16, subtable: &[u16]) -> Result<Vec<u8>, AllocError> {
    let mut gpos = bytes_of(&[1, 0, 0, 0, 10, 1, 4, kind, flag, 1, 8])?;
    for byte in bytes_of(subtable)?.iter() {
        gpos.push(*byte)?;
    }
    Ok(gpos)
}

/// The glyphs of a line; those from 20 on are marks.
fn fill(infos: &mut [hb_glyph_info_t], glyphs: &[u32]) {
    for (place, info) in infos.iter_mut().enumerate() {
        let glyph = glyphs.get(place).copied().unwrap_or(0);
        *info = hb_glyph_info_t {
            glyph_id: glyph,
            mask: 8,
            cluster: (place % 1000) as u32,
            var1: if glyph < 20 { 2 } else { 8 },
            var2: 0,
        };
    }
}

/// Each glyph is 600 units wide, and marks have no width.
fn widen(positions: &mut [GlyphPosition], glyphs: &[u32]) {
    for (place, position) in positions.iter_mut().enumerate() {
        let glyph = glyphs.get(place).copied().unwrap_or(0);
        position.x_advance = if glyph < 20 { 600 } else { 0 };
    }
}

/// A line of these glyphs.
fn line_of(direction: Direction, glyphs: &[u32]) -> Result<hb_buffer_t, AllocError> {
    let mut text = UnicodeBuffer::new();
    for _glyph in glyphs {
        let _ = text.push_str("a")?;
    }
    let mut buffer = text.into_buffer();
    fill(buffer.info_slice_mut(), glyphs);
    buffer.clear_positions();
    widen(buffer.pos_mut(), glyphs);
    buffer.direction = direction;
    Ok(buffer)
}

/// No classes of glyphs: a table `GDEF` with no bytes of another table.
fn no_definitions<'a>(table: &'a [u8]) -> Gdef<'a> {
    Gdef::new(tail(table, table.len()))
}

/// Positions a line by the only lookup of a table.
fn positioned(
    gpos: &[u8],
    direction: Direction,
    glyphs: &[u32],
) -> Result<hb_buffer_t, AllocError> {
    let gdef = no_definitions(gpos);
    let list = LookupList::new(gpos, 9, &gdef)?;
    let mut buffer = line_of(direction, glyphs)?;
    position_all(&mut buffer, &list, Budget::new(1000, glyphs.len()));
    Ok(buffer)
}

/// Positions a line by the first lookup, within a budget.
fn position_all(buffer: &mut hb_buffer_t, list: &LookupList, budget: Budget) {
    debug_assert!(!buffer.have_output());
    debug_assert!(buffer.have_positions());
    let setting = Setting {
        list,
        instance: Instance {
            scale: Scale::of_em(1000),
            deltas: Deltas::NONE,
        },
        points: &NoPoints,
    };
    let mut search = Search::new(budget);
    position_start(buffer);
    position(buffer, &setting, 0, &OPTIONS, &mut search);
    position_finish_offsets(buffer);
}

/// The advance of a glyph, and how far it is moved across and up.
type Placing = (i32, i32, i32);

/// A line, and what becomes of its glyphs.
struct Line {
    direction: Direction,
    glyphs: &'static [u32],
    /// Places, and the glyphs there.
    placings: &'static [(usize, Placing)],
    /// Places, and whether the line may not be broken before the glyph there.
    breaks: &'static [(usize, bool)],
}

/// The advance and the offsets at a place.
fn at(buffer: &hb_buffer_t, place: usize) -> Placing {
    debug_assert!(buffer.have_positions());
    match buffer.pos().get(place) {
        Some(position) => (position.x_advance, position.x_offset, position.y_offset),
        None => (0, 0, 0),
    }
}

/// Whether a line may not be broken before the glyph at a place.
fn is_unsafe(buffer: &hb_buffer_t, place: usize) -> bool {
    match buffer.info().get(place) {
        Some(glyph) => glyph.unsafe_to_break(),
        None => false,
    }
}

/// Whether the glyphs of a line stand as it says.
fn is_placed(buffer: &hb_buffer_t, line: &Line) -> bool {
    debug_assert!(buffer.have_positions());
    for (place, placing) in line.placings {
        if at(buffer, *place) != *placing {
            return false;
        }
    }
    for (place, is_there) in line.breaks {
        if is_unsafe(buffer, *place) != *is_there {
            return false;
        }
    }
    true
}

/// A lookup with one subtable, and a line that it places.
struct Row {
    name: &'static str,
    kind: u16,
    flag: u16,
    subtable: &'static [u16],
    line: Line,
}

/// Pairs of glyphs, of which both are changed.
const BOTH_OF_PAIRS: &[u16] = &[
    1, 12, 4, 1, 1, 18, 1, 1, 10, 2, 11, 0xFFCE, 7, 12, 0xFFC4, 8,
];

/// Pairs of glyphs, of which the first is changed.
const PAIRS: &[u16] = &[1, 12, 4, 0, 1, 18, 1, 1, 10, 2, 11, 0xFFCE, 12, 20];

/// Pairs of classes.
const CLASSES: &[u16] = &[
    2, 20, 4, 0, 26, 32, 1, 2, 0, 0xFFCE, 1, 1, 10, 1, 0, 0, 1, 11, 1, 1,
];

/// A mark and its base.
const MARKS: &[u16] = &[
    1, 12, 18, 1, 24, 36, 1, 1, 20, 1, 1, 10, 1, 0, 6, 1, 100, 200, 1, 4, 1, 300, 500,
];

/// An exit and an entry.
const CURSIVE: &[u16] = &[1, 14, 2, 0, 22, 28, 0, 1, 2, 10, 11, 1, 500, 100, 1, 50, 20];

static ROWS: [Row; 8] = [
    Row {
        name: "the second glyph of a pair",
        kind: 2,
        flag: 0,
        subtable: BOTH_OF_PAIRS,
        line: Line {
            direction: Direction::LeftToRight,
            glyphs: &[10, 12, 10, 11],
            placings: &[
                (0, (540, 0, 0)),
                (1, (600, 8, 0)),
                (2, (550, 0, 0)),
                (3, (600, 7, 0)),
            ],
            breaks: &[(0, false), (1, true), (3, true)],
        },
    },
    Row {
        name: "kerning by classes, where marks are passed over",
        kind: 2,
        flag: 8,
        subtable: CLASSES,
        line: Line {
            direction: Direction::LeftToRight,
            glyphs: &[10, 11, 10, 12, 10, 20, 11],
            placings: &[
                (0, (550, 0, 0)),
                (1, (600, 0, 0)),
                (2, (600, 0, 0)),
                (4, (550, 0, 0)),
            ],
            breaks: &[(1, true), (3, false), (6, true)],
        },
    },
    Row {
        name: "an advance across changes nothing in a vertical line",
        kind: 2,
        flag: 8,
        subtable: CLASSES,
        line: Line {
            direction: Direction::TopToBottom,
            glyphs: &[10, 11],
            placings: &[(0, (600, 0, 0))],
            breaks: &[(1, false)],
        },
    },
    Row {
        name: "kerning by glyphs",
        kind: 2,
        flag: 0,
        subtable: PAIRS,
        line: Line {
            direction: Direction::LeftToRight,
            glyphs: &[10, 12, 10, 11, 10, 13],
            placings: &[(0, (620, 0, 0)), (2, (550, 0, 0)), (4, (600, 0, 0))],
            breaks: &[(3, true), (5, false)],
        },
    },
    Row {
        name: "marks on their base",
        kind: 4,
        flag: 0,
        subtable: MARKS,
        line: Line {
            direction: Direction::LeftToRight,
            glyphs: &[10, 20, 20],
            placings: &[(1, (0, -400, 300)), (2, (0, -400, 300))],
            breaks: &[],
        },
    },
    Row {
        name: "a mark on its base, from right to left",
        kind: 4,
        flag: 0,
        subtable: MARKS,
        line: Line {
            direction: Direction::RightToLeft,
            glyphs: &[10, 20],
            placings: &[(1, (0, 200, 300))],
            breaks: &[],
        },
    },
    Row {
        name: "an exit meets an entry",
        kind: 3,
        flag: 0,
        subtable: CURSIVE,
        line: Line {
            direction: Direction::LeftToRight,
            glyphs: &[10, 11],
            placings: &[(0, (500, 0, 0)), (1, (550, -50, 80))],
            breaks: &[],
        },
    },
    Row {
        name: "an exit meets an entry, from right to left",
        kind: 3,
        flag: 1,
        subtable: CURSIVE,
        line: Line {
            direction: Direction::RightToLeft,
            glyphs: &[10, 11],
            placings: &[(0, (100, -500, -80)), (1, (50, 0, 0))],
            breaks: &[],
        },
    },
];

/// Whether a row's lookup places its line as it says.
fn is_met(row: &Row) -> Result<bool, AllocError> {
    let gpos = gpos_of(row.kind, row.flag, row.subtable)?;
    let buffer = positioned(&gpos, row.line.direction, row.line.glyphs)?;
    Ok(is_placed(&buffer, &row.line))
}

#[test]
fn lookups_place_glyphs() -> Result<(), AllocError> {
    for row in &ROWS {
        assert!(is_met(row)?, "{}", row.name);
    }
    Ok(())
}

/// The advance of the first glyph of a pair after some steps, and whether it is told that they were not
/// enough.
fn within(steps: u64) -> Result<(i32, bool), AllocError> {
    let gpos = gpos_of(2, 0, PAIRS)?;
    let gdef = no_definitions(&gpos);
    let list = LookupList::new(&gpos, 9, &gdef)?;
    let mut buffer = line_of(Direction::LeftToRight, &[10, 11])?;
    position_all(&mut buffer, &list, Budget { nested: 1, steps });
    Ok((at(&buffer, 0).0, buffer.shaping_failed))
}

/// Where the budget is spent, glyphs stay as they are, and it is told.
#[test]
fn a_spent_budget_is_told() -> Result<(), AllocError> {
    for (steps, matcher) in [(3, (600, true)), (1000, (550, false))] {
        assert_eq!(within(steps)?, matcher, "{steps}");
    }
    Ok(())
}

/// A table `kern` with one pair.
const KERN: &[u16] = &[0, 1, 0, 20, 1, 1, 0, 0, 0, 10, 11, 0xFFCD];

static KERNED: [Line; 2] = [
    Line {
        direction: Direction::LeftToRight,
        glyphs: &[10, 20, 11],
        placings: &[(0, (574, 0, 0)), (2, (575, -25, 0))],
        breaks: &[],
    },
    Line {
        direction: Direction::RightToLeft,
        glyphs: &[11, 10],
        placings: &[(0, (575, -25, 0)), (1, (574, 0, 0))],
        breaks: &[],
    },
];

/// Whether a table `kern` places a line as it says.
fn is_kerned(line: &Line) -> Result<bool, AllocError> {
    let bytes = bytes_of(KERN)?;
    let table = KernTable::new(&bytes);
    let mut buffer = line_of(line.direction, line.glyphs)?;
    kern(&mut buffer, &table, &Scale::of_em(1000), &OPTIONS);
    Ok(table.has_kerning() && is_placed(&buffer, line))
}

/// Half of a value is taken on each side.
#[test]
fn half_of_a_kerning_value() -> Result<(), AllocError> {
    for (number, line) in KERNED.iter().enumerate() {
        assert!(is_kerned(line)?, "{number}");
    }
    Ok(())
}
