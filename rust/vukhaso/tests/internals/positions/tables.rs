//! Device tables, value records and pairs, after the OpenType specification.

use crate::positions::bytes::bytes_of;
use vukhaso::internals::font_tables::scale::Scale;
use vukhaso::internals::font_variations::Deltas;
use vukhaso::internals::glyph::GlyphPosition;
use vukhaso::internals::ot_gpos_tables::devices::{
    delta_pixels, device_delta, x_correction, y_correction,
};
use vukhaso::internals::ot_gpos_tables::instance::Instance;
use vukhaso::internals::ot_gpos_tables::pairs::{
    PairValues, classed_pair, listed_pair, pair_formats, pair_set, second_row, single_values,
};
use vukhaso::internals::ot_gpos_tables::values::{ValueRecord, record_size};
use vukhaso::memory::AllocError;

/// A device table, and by how many pixels a number is corrected at sizes in pixels.
struct Device {
    name: &'static str,
    words: &'static [u16],
    pixels: &'static [(u16, i32)],
}

static DEVICES: [Device; 5] = [
    Device {
        name: "the specification's example: one pixel from 11 pixels an em to 15",
        words: &[11, 15, 1, 0x5540],
        pixels: &[(10, 0), (11, 1), (15, 1), (16, 0)],
    },
    Device {
        name: "values of two bits may be negative, and go on in the next word",
        words: &[9, 17, 1, 0xE000, 0x8000],
        pixels: &[(9, -1), (10, -2), (11, 0), (17, -2)],
    },
    Device {
        name: "values of four bits",
        words: &[8, 12, 2, 0x1F80, 0x7000],
        pixels: &[(8, 1), (9, -1), (10, -8), (11, 0), (12, 7)],
    },
    Device {
        name: "values of eight bits",
        words: &[8, 10, 3, 0x7F80, 0xFF00],
        pixels: &[(8, 127), (9, -128), (10, -1)],
    },
    Device {
        name: "an unknown format corrects nothing",
        words: &[8, 10, 4, 0x7F80, 0xFF00],
        pixels: &[(8, 0), (9, 0)],
    },
];

/// By how many pixels a table corrects a number at a size.
fn pixels_at(words: &[u16], size: u16) -> Result<i32, AllocError> {
    let table = bytes_of(words)?;
    Ok(delta_pixels(&table, size))
}

#[test]
fn device_tables_are_for_sizes() -> Result<(), AllocError> {
    for device in &DEVICES {
        for (size, pixels) in device.pixels {
            let found = pixels_at(device.words, *size)?;
            assert_eq!(found, *pixels, "{}", device.name);
        }
    }
    Ok(())
}

/// Two device tables: one pixel from 11 pixels an em to 15, and three down at 10.
const TWO_DEVICES: &[u16] = &[0, 11, 15, 1, 0x5540, 9, 11, 2, 0x0D00];

/// A table of variations in the place of a device table.
const VARIATION_INDEX: &[u16] = &[0, 0, 0, 0x8000];

/// Offsets of device tables, pixels of an em, its units, and the correction.
static DELTAS: [(u16, u16, i32, i32); 4] = [
    (2, 12, 1000, 83),
    (2, 12, -1000, -83),
    (0, 12, 1000, 0),
    (2, 0, 1000, 0),
];

/// The correction by a device table at an offset.
fn delta_of(table: &[u8], offset: u16, pixels: u16, em: i32) -> i32 {
    device_delta(table, offset, pixels, em)
}

/// A pixel of an em of 1,000 units that has 12 pixels is 83 units, and a third of one less.
#[test]
fn pixels_are_counted_in_font_units() -> Result<(), AllocError> {
    let table = bytes_of(TWO_DEVICES)?;
    for &(offset, pixels, em, delta) in &DELTAS {
        assert_eq!(
            delta_of(&table, offset, pixels, em),
            delta,
            "{offset} {pixels} {em}"
        );
    }
    Ok(())
}

/// Tables, offsets in them, and the corrections across and up.
static CORRECTIONS: [(&[u16], u16, (i32, i32)); 3] = [
    (TWO_DEVICES, 2, (83, 0)),
    (TWO_DEVICES, 10, (0, -300)),
    (VARIATION_INDEX, 2, (0, 0)),
];

/// The corrections by a table at an offset.
fn corrections(words: &[u16], offset: u16) -> Result<(i32, i32), AllocError> {
    let table = bytes_of(words)?;
    let instance = instance_of(12, 10);
    let across = x_correction(&table, offset, &instance);
    Ok((across, y_correction(&table, offset, &instance)))
}

/// Where no variations are chosen, a table of variations corrects nothing.
#[test]
fn numbers_are_corrected() -> Result<(), AllocError> {
    for &(words, offset, found) in &CORRECTIONS {
        assert_eq!(corrections(words, offset)?, found, "{offset}");
    }
    let instance = instance_of(12, 10);
    assert_eq!((instance.x_delta(0), instance.y_delta(0)), (0, 0));
    Ok(())
}

/// A font whose em has so many pixels across and up.
fn instance_of<'a>(x_ppem: u16, y_ppem: u16) -> Instance<'a> {
    let mut scale = Scale::of_em(1000);
    scale.x_ppem = x_ppem;
    scale.y_ppem = y_ppem;
    Instance {
        scale,
        deltas: Deltas::NONE,
    }
}

/// The four numbers of a record, and the four offsets.
fn fields_of(record: &ValueRecord) -> ([i16; 4], [u16; 4]) {
    (
        [
            record.x_placement,
            record.y_placement,
            record.x_advance,
            record.y_advance,
        ],
        [
            record.x_placement_device,
            record.y_placement_device,
            record.x_advance_device,
            record.y_advance_device,
        ],
    )
}

/// Formats, and how many bytes their records have.
static SIZES: [(u16, usize); 5] = [(0, 0), (0x04, 2), (0x05, 4), (0xA2, 6), (0xFF, 16)];

#[test]
fn records_have_sizes() {
    for &(format, size) in &SIZES {
        assert_eq!(record_size(format), size, "{format}");
    }
}

/// Formats, places, and the record there among the numbers 1 to 9, the second being -2.
static FORMATS: [(u16, usize, Option<([i16; 4], [u16; 4])>); 7] = [
    (0, 2, Some(([0, 0, 0, 0], [0, 0, 0, 0]))),
    (0x04, 2, Some(([0, 0, -2, 0], [0, 0, 0, 0]))),
    (0x05, 2, Some(([-2, 0, 3, 0], [0, 0, 0, 0]))),
    (0xA2, 2, Some(([0, -2, 0, 0], [0, 3, 0, 4]))),
    (0xFF, 2, Some(([-2, 3, 4, 5], [6, 7, 8, 9]))),
    (0xFF, 4, None),
    (0, 19, None),
];

/// The fields of a record of a format at a place.
fn fields_at(table: &[u8], format: u16, at: usize) -> Option<([i16; 4], [u16; 4])> {
    Some(fields_of(&ValueRecord::read(table, format, at)?))
}

#[test]
fn records_have_the_fields_of_their_format() -> Result<(), AllocError> {
    let table = bytes_of(&[1, 0xFFFE, 3, 4, 5, 6, 7, 8, 9])?;
    for &(format, at, fields) in &FORMATS {
        assert_eq!(fields_at(&table, format, at), fields, "{format} at {at}");
    }
    Ok(())
}

/// A record with these four numbers, and a device table for the advance to the right.
fn record_of(numbers: [i16; 4], x_advance_device: u16) -> ValueRecord {
    ValueRecord {
        x_placement: numbers[0],
        y_placement: numbers[1],
        x_advance: numbers[2],
        y_advance: numbers[3],
        x_placement_device: 0,
        y_placement_device: 0,
        x_advance_device,
        y_advance_device: 0,
    }
}

/// The advance and the offset of a glyph that a record moves along a line.
fn moved(base: &[u8], is_horizontal: bool) -> [i32; 4] {
    let mut glyph = GlyphPosition {
        x_advance: 600,
        y_advance: -1000,
        x_offset: 1,
        y_offset: 2,
        ..GlyphPosition::default()
    };
    let record = record_of([10, -20, 30, 40], 2);
    record.move_glyph(base, &instance_of(12, 10), is_horizontal, &mut glyph);
    [
        glyph.x_advance,
        glyph.y_advance,
        glyph.x_offset,
        glyph.y_offset,
    ]
}

/// An advance grows along the line, and one that goes down grows downwards.
#[test]
fn records_move_glyphs() -> Result<(), AllocError> {
    let base = bytes_of(&[0, 11, 15, 1, 0x5540])?;
    for (is_horizontal, found) in [
        (true, [713, -1000, 11, -18]),
        (false, [600, -1040, 11, -18]),
    ] {
        assert_eq!(moved(&base, is_horizontal), found, "{is_horizontal}");
    }
    Ok(())
}

/// Numbers of a record, whether it has a device table for the advance to the right, how many pixels an em has across, and
/// whether the record has an effect in a horizontal and in a vertical line.
static EFFECTS: [([i16; 4], u16, u16, bool, bool); 7] = [
    ([0, 0, 0, 0], 0, 12, false, false),
    ([1, 0, 0, 0], 0, 0, true, true),
    ([0, 1, 0, 0], 0, 0, true, true),
    ([0, 0, 1, 0], 0, 0, true, false),
    ([0, 0, 0, 1], 0, 0, false, true),
    ([0, 0, 0, 0], 2, 0, false, false),
    ([0, 0, 0, 0], 2, 12, true, false),
];

/// Whether a record has an effect in a horizontal and in a vertical line.
fn effects(numbers: [i16; 4], device: u16, ppem: u16) -> (bool, bool) {
    let record = record_of(numbers, device);
    let instance = instance_of(ppem, 0);
    (
        record.has_effect(&instance, true),
        record.has_effect(&instance, false),
    )
}

#[test]
fn records_have_an_effect_along_the_line() {
    for (row, (numbers, device, ppem, across, down)) in EFFECTS.iter().enumerate() {
        assert_eq!(effects(*numbers, *device, *ppem), (*across, *down), "{row}");
    }
}

/// Subtables, indexes of glyphs, and the advance of each.
static SINGLES: [(&[u16], u32, Option<i16>); 4] = [
    (&[1, 0, 4, 50], 7, Some(50)),
    (&[2, 0, 4, 2, 50, 60], 1, Some(60)),
    (&[2, 0, 4, 2, 50, 60], 2, None),
    (&[3, 0, 4, 50], 0, None),
];

/// The advance of a glyph of a subtable.
fn single_advance(subtable: &[u8], index: u32) -> Option<i16> {
    Some(single_values(subtable, index)?.x_advance)
}

#[test]
fn single_glyphs_have_one_record_or_each_its_own() -> Result<(), AllocError> {
    for (row, &(words, index, advance)) in SINGLES.iter().enumerate() {
        let subtable = bytes_of(words)?;
        assert_eq!(single_advance(&subtable, index), advance, "{row}");
    }
    Ok(())
}

/// The advance of the first glyph, and how far the second is moved to the right.
fn values_of(pair: Option<PairValues>) -> Option<(i16, i16)> {
    pair.map(|values| (values.first.x_advance, values.second.x_placement))
}

/// Pairs of two first glyphs; the set of the second one has rows for the glyphs 11 and 12.
const PAIRS: &[u16] = &[1, 0, 4, 1, 2, 0, 14, 2, 11, 50, 7, 12, 60, 8];

/// Second glyphs, the row of each in the set, and its values.
static LISTED: [(u16, Option<usize>, Option<(i16, i16)>); 3] = [
    (11, Some(0), Some((50, 7))),
    (12, Some(1), Some((60, 8))),
    (13, None, None),
];

/// Whether a first glyph has a set of second ones.
fn has_set(subtable: &[u8], first: u32) -> bool {
    pair_set(subtable, first).is_some()
}

/// The row of a second glyph in the set.
fn row_of(subtable: &[u8], second: u16) -> Option<usize> {
    second_row(pair_set(subtable, 1)?, 6, second)
}

/// The values of a second glyph in the set.
fn listed(subtable: &[u8], second: u16) -> Option<(i16, i16)> {
    let set = pair_set(subtable, 1)?;
    values_of(listed_pair(set, pair_formats(subtable), second))
}

/// The formats of the records of both glyphs.
fn formats_of(subtable: &[u8]) -> (u16, u16) {
    pair_formats(subtable)
}

#[test]
fn pairs_are_found_by_their_second_glyph() -> Result<(), AllocError> {
    let subtable = bytes_of(PAIRS)?;
    assert_eq!(formats_of(&subtable), (4, 1));
    assert!(!has_set(&subtable, 0));
    assert!(has_set(&subtable, 1));
    assert!(!has_set(&subtable, 2));
    for &(second, row, values) in &LISTED {
        assert_eq!(row_of(&subtable, second), row, "{second}");
        assert_eq!(listed(&subtable, second), values, "{second}");
    }
    Ok(())
}

/// Classes of first glyphs, of second ones, and their values.
static CLASSED: [(u16, u16, Option<(i16, i16)>); 5] = [
    (0, 0, Some((10, 1))),
    (0, 2, Some((30, 3))),
    (1, 1, Some((50, 5))),
    (2, 0, None),
    (0, 3, None),
];

/// The values of a pair of classes.
fn classed(subtable: &[u8], first: u16, second: u16) -> Option<(i16, i16)> {
    values_of(classed_pair(subtable, first, second))
}

/// Two classes of first glyphs, and three of second ones.
#[test]
fn pairs_of_classes_stand_in_rows() -> Result<(), AllocError> {
    let words = [
        2, 0, 4, 1, 0, 0, 2, 3, 10, 1, 20, 2, 30, 3, 40, 4, 50, 5, 60, 6,
    ];
    let subtable = bytes_of(&words)?;
    for &(first, second, values) in &CLASSED {
        assert_eq!(
            classed(&subtable, first, second),
            values,
            "{first} {second}"
        );
    }
    Ok(())
}
