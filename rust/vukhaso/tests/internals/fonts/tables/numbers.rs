use std::cmp::Ordering;
use vukhaso::internals::font_tables::bisection::{KeyedRows, beside_key, row_with};
use vukhaso::internals::font_tables::bytes::{
    i16_at, part, table_at_16, table_at_32, tail, u8_at, u16_at, u24_at, u32_at,
};
use vukhaso::internals::font_tables::rows::{
    Keys16, Numbers16, Rows, first_row, rises, rows_within,
};
use vukhaso::internals::font_tables::scale::saturated;
use vukhaso::internals::numbers::Chunks;

static TABLE: [u8; 8] = [0x01, 0x02, 0x03, 0x04, 0xFF, 0xFE, 0x00, 0x00];

#[test]
fn numbers_are_big_endian() {
    let numbers = (
        u8_at(&TABLE, 1),
        u16_at(&TABLE, 1),
        u24_at(&TABLE, 1),
        u32_at(&TABLE, 0),
    );
    assert_eq!(
        numbers,
        (Some(2), Some(0x0203), Some(0x020304), Some(0x01020304))
    );
    assert_eq!(
        (i16_at(&TABLE, 4), i16_at(&TABLE, 0)),
        (Some(-2), Some(0x0102))
    );
    let outside = (
        u8_at(&TABLE, 8),
        u16_at(&TABLE, 7),
        u24_at(&TABLE, 6),
        u32_at(&TABLE, 5),
    );
    assert_eq!(outside, (None, None, None, None));
}

#[test]
fn a_number_past_32_bits_is_the_nearest() {
    let numbers = (
        saturated(0x8000_0000),
        saturated(-0x8000_0001),
        saturated(-7),
    );
    assert_eq!(numbers, (i32::MAX, i32::MIN, -7));
}

/// The tables that offsets of 16 and of 32 bits lead to.
fn tables_at(table: &[u8], at: usize) -> [Option<&[u8]>; 2] {
    [table_at_16(table, at), table_at_32(table, at)]
}

#[test]
fn an_offset_of_0_leads_nowhere() {
    assert_eq!(tables_at(&TABLE, 6), [None, None]);
    assert_eq!(tables_at(&[0, 3, 7, 8], 0)[0], Some([8].as_slice()));
    assert_eq!(tables_at(&[0, 0, 0, 4, 9], 0), [None, Some([9].as_slice())]);
    assert_eq!(tables_at(&TABLE, 4)[1], Some([].as_slice()));
}

#[test]
fn parts_end_with_their_table() {
    assert_eq!(
        (tail(&TABLE, 6), part(&TABLE, 5, 9)),
        ([0, 0].as_slice(), [0xFE, 0, 0].as_slice())
    );
}

/// Keys, and the first row whose key is not below it, of 2, 4, 4 and 9.
static REACHED: [(u32, Option<usize>); 5] = [
    (0, Some(0)),
    (3, Some(1)),
    (4, Some(1)),
    (9, Some(3)),
    (10, None),
];

/// The rows of a table.
const ROWS: Keys16<'static> = Keys16 {
    table: &[0, 2, 0, 4, 0, 4, 0, 9],
    start: 0,
    size: 2,
};

/// The same numbers in a list.
fn numbers() -> Numbers16<'static> {
    Numbers16(Chunks::from(&[[0, 2], [0, 4], [0, 4], [0, 9]]))
}

/// The first row that reaches a key, of rows that are known to rise, of rows that are not, and of
/// numbers.
fn reached(key: u32) -> [Option<usize>; 3] {
    let numbers = numbers();
    [
        first_row(&ROWS, 4, key, rises(&ROWS, 4)),
        first_row(&ROWS, 4, key, false),
        first_row(&numbers, 4, key, rises(&numbers, 4)),
    ]
}

#[test]
fn the_first_row_reaches_a_key() {
    for &(key, row) in &REACHED {
        assert_eq!(reached(key), [row, row, row], "{key}");
    }
}

/// Whether rows and numbers rise, and the last key of two rows.
fn rows_told() -> (bool, bool, [Option<u32>; 2]) {
    let numbers = numbers();
    let lasts = [numbers.last(3), numbers.last(4)];
    (rises(&ROWS, 4), rises(&numbers, 4), lasts)
}

#[test]
fn rows_rise() {
    assert_eq!(rows_told(), (true, true, [Some(9), None]));
    assert_eq!(rows_within(&TABLE, 2, 4, 9), 1);
}

/// Keys, and the row that bisection finds for each among 2, 4, 4, 9 and 6.
static FOUND: [(u32, Option<usize>); 6] = [
    (2, Some(0)),
    (3, None),
    (4, Some(2)),
    (6, None),
    (9, Some(3)),
    (10, None),
];

/// Rows of which the last one does not rise.
const UNSORTED: Keys16<'static> = Keys16 {
    table: &[0, 2, 0, 4, 0, 4, 0, 9, 0, 6],
    start: 0,
    size: 2,
};

/// The row of a key.
fn found(key: u32) -> Option<usize> {
    row_with(&UNSORTED, 5, key)
}

#[test]
fn bisection_finds_the_row_of_a_key() {
    for &(key, row) in &FOUND {
        assert_eq!(found(key), row, "{key}");
    }
}

/// On which side of a row a key lies.
fn side_of(key: u32, row: usize) -> Option<Ordering> {
    UNSORTED.beside(key, row)
}

#[test]
fn keys_lie_beside_rows() {
    assert_eq!(side_of(3, 1), Some(Ordering::Less));
    assert!(side_of(3, 5).is_none());
    assert_eq!(beside_key(Some(3), 4), Some(Ordering::Greater));
    assert!(beside_key(None, 4).is_none());
}
