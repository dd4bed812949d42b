//! The table `kern`, after the OpenType specification and Apple's reference manual.

use crate::positions::bytes::bytes_of;
use vukhaso::internals::ot_gpos_tables::kern_table::{
    KernTable, classed_value, pair_row, pair_value,
};
use vukhaso::memory::AllocError;

/// A subtable of pairs with the header of Windows, for horizontal lines: 10 and 11 by -51, and 10 and 12 by 30.
const PAIRS: &[u16] = &[0, 26, 1, 2, 0, 0, 0, 10, 11, 0xFFCD, 10, 12, 30];

/// One of classes, across the line: glyphs 10 and 11 on the left, and 20 and 21 on the right.
const CLASSES: &[u16] = &[
    0, 38, 0x0205, 4, 22, 30, 14, 1, 2, 3, 4, 10, 2, 14, 18, 20, 2, 0, 2,
];

/// Pairs in a subtable of pairs, the row of each, and its value.
static LISTED: [(u16, u16, Option<usize>, Option<i16>); 4] = [
    (10, 11, Some(0), Some(-51)),
    (10, 12, Some(1), Some(30)),
    (11, 10, None, None),
    (10, 13, None, None),
];

/// Pairs in a subtable of classes, and their values.
static CLASSED: [(u16, u16, i16); 6] = [
    (10, 20, 1),
    (10, 21, 2),
    (11, 20, 3),
    (11, 21, 4),
    (12, 20, 0),
    (11, 19, 0),
];

/// The row of a pair in a subtable of pairs.
fn row_of(left: u16, right: u16) -> Result<Option<usize>, AllocError> {
    let subtable = bytes_of(PAIRS)?;
    Ok(pair_row(&subtable, 6, left, right))
}

/// The value of a pair in a subtable of pairs.
fn value_of(left: u16, right: u16) -> Result<Option<i16>, AllocError> {
    let subtable = bytes_of(PAIRS)?;
    Ok(pair_value(&subtable, 6, left, right))
}

#[test]
fn pairs_have_values() -> Result<(), AllocError> {
    for (number, &(left, right, row, value)) in LISTED.iter().enumerate() {
        assert_eq!(row_of(left, right)?, row, "{number}");
        assert_eq!(value_of(left, right)?, value, "{number}");
    }
    Ok(())
}

/// The value of a pair of classes.
fn classed(left: u16, right: u16) -> Result<i16, AllocError> {
    let subtable = bytes_of(CLASSES)?;
    Ok(classed_value(&subtable, 6, left, right))
}

#[test]
fn classes_have_values() -> Result<(), AllocError> {
    for (number, &(left, right, value)) in CLASSED.iter().enumerate() {
        assert_eq!(classed(left, right)?, value, "{number}");
    }
    Ok(())
}

/// A table, how many subtables it has, and whether one is a state machine, and one for kerning across the line.
struct Row {
    name: &'static str,
    words: &'static [u16],
    count: u32,
    is_machine: bool,
    is_cross: bool,
}

static ROWS: [Row; 7] = [
    Row {
        name: "pairs along the line",
        words: &[0, 1, 0, 20, 1, 1, 0, 0, 0, 10, 11, 0xFFCD],
        count: 1,
        is_machine: false,
        is_cross: false,
    },
    Row {
        name: "pairs behind a state machine",
        words: &[0, 2, 0, 6, 0x0101, 0, 20, 1, 1, 0, 0, 0, 10, 11, 0xFFCD],
        count: 2,
        is_machine: true,
        is_cross: false,
    },
    Row {
        name: "pairs across the line behind a state machine, with Apple's headers",
        words: &[
            1, 0, 0, 2, 0, 8, 1, 0, 0, 22, 0x4000, 0, 1, 0, 0, 0, 10, 11, 0xFFCD,
        ],
        count: 2,
        is_machine: true,
        is_cross: true,
    },
    Row {
        name: "no subtables",
        words: &[0, 0],
        count: 0,
        is_machine: false,
        is_cross: false,
    },
    Row {
        name: "another version",
        words: &[2, 1, 0, 20, 5, 1, 0, 0, 0, 10, 11, 0xFFCD],
        count: 0,
        is_machine: false,
        is_cross: false,
    },
    Row {
        name: "a subtable that is cut short",
        words: &[0, 1, 0, 22, 5, 1, 0, 0, 0, 10, 11, 0xFFCD],
        count: 0,
        is_machine: false,
        is_cross: false,
    },
    Row {
        name: "a pair that is cut short",
        words: &[0, 1, 0, 20, 5, 2, 0, 0, 0, 10, 11, 0xFFCD],
        count: 0,
        is_machine: false,
        is_cross: false,
    },
];

/// How many subtables a table has, and whether it has any, a state machine, and one for kerning across
/// the line.
fn summary_of(words: &[u16]) -> Result<(u32, [bool; 3]), AllocError> {
    let bytes = bytes_of(words)?;
    let table = KernTable::new(&bytes);
    let has = [
        table.has_kerning(),
        table.has_machine_kerning(),
        table.has_cross_kerning(),
    ];
    Ok((table.count, has))
}

#[test]
fn tables_have_subtables() -> Result<(), AllocError> {
    for row in &ROWS {
        let found = summary_of(row.words)?;
        let has = [row.count != 0, row.is_machine, row.is_cross];
        assert_eq!(found, (row.count, has), "{}", row.name);
    }
    Ok(())
}

/// A subtable's format, the sizes of its header and of the whole, how many bytes there are of it, whether it is for horizontal lines,
/// for kerning across the line and for variations, and the values of the pair 10 and 11 and of that pair turned round.
type Subtable = (u8, u8, usize, usize, [bool; 3], [i16; 2]);

/// A table, a place and a number of a subtable, and the subtable there.
struct Place {
    words: &'static [u16],
    at: usize,
    number: u32,
    subtable: Option<Subtable>,
}

/// Two subtables with Apple's headers, of which the second one's values are for vertical lines.
const TWO: &[u16] = &[
    1, 0, 0, 2, 0, 8, 1, 0, 0, 22, 0x8000, 0, 1, 0, 0, 0, 10, 11, 0xFFCD,
];

/// One subtable, which goes up to the end of the table, whatever length it says that it has.
const LAST: &[u16] = &[0, 1, 0, 20, 1, 1, 0, 0, 0, 10, 11, 0xFFCD, 7];

static PLACES: [Place; 4] = [
    Place {
        words: TWO,
        at: 8,
        number: 0,
        subtable: Some((1, 8, 8, 8, [true, false, false], [0, 0])),
    },
    Place {
        words: TWO,
        at: 16,
        number: 1,
        subtable: Some((0, 8, 22, 22, [false, false, false], [-51, 0])),
    },
    Place {
        words: TWO,
        at: 17,
        number: 1,
        subtable: None,
    },
    Place {
        words: LAST,
        at: 4,
        number: 0,
        subtable: Some((0, 6, 20, 22, [true, false, false], [-51, 0])),
    },
];

/// The subtable of a table at a place.
fn subtable_at(table: &[u8], at: usize, number: u32) -> Option<Subtable> {
    let found = KernTable::new(table).subtable_at(at, number)?;
    let coverage = [
        found.coverage.is_horizontal,
        found.coverage.is_cross_stream,
        found.coverage.is_variation,
    ];
    let values = [found.kerning(10, 11), found.kerning(11, 10)];
    Some((
        found.format,
        found.header,
        found.length,
        found.table.len(),
        coverage,
        values,
    ))
}

/// The next subtable begins behind the one before it.
#[test]
fn subtables_stand_one_behind_the_other() -> Result<(), AllocError> {
    for place in &PLACES {
        let table = bytes_of(place.words)?;
        let found = subtable_at(&table, place.at, place.number);
        assert_eq!(found, place.subtable, "{}", place.at);
    }
    Ok(())
}

/// Where the first subtable of a table begins.
fn start_of(words: &[u16]) -> Result<usize, AllocError> {
    let table = bytes_of(words)?;
    Ok(KernTable::new(&table).start())
}

#[test]
fn tables_begin_with_headers() -> Result<(), AllocError> {
    assert_eq!(start_of(TWO)?, 8);
    assert_eq!(start_of(LAST)?, 4);
    Ok(())
}
