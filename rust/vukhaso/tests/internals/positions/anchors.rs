//! Anchors and the arrays in which they stand, after the OpenType specification, "GPOS - Glyph Positioning Table".

use crate::positions::bytes::bytes_of;
use vukhaso::internals::font_tables::scale::Scale;
use vukhaso::internals::font_variations::Deltas;
use vukhaso::internals::ot_gpos_tables::anchors::{
    Anchor, anchor_in, ligature_matrix, mark_anchor, mark_class, named_point,
};
use vukhaso::internals::ot_gpos_tables::contour_points::{ContourPoint, ContourPoints, NoPoints};
use vukhaso::internals::ot_gpos_tables::instance::Instance;
use vukhaso::memory::AllocError;

/// Where an anchor is: across and up, and how far it is moved.
type Place = (i16, i16, i32, i32);

/// An anchor in numbers of 16 bits, where an em of 1,000 units has so many pixels across and 10 up, a point of an outline, and where it
/// is.
struct Row {
    name: &'static str,
    words: &'static [u16],
    x_ppem: u16,
    point: Option<ContourPoint>,
    place: Option<Place>,
}

static ROWS: [Row; 9] = [
    Row {
        name: "format 1 is two numbers",
        words: &[1, 189, 0xFF99],
        x_ppem: 12,
        point: None,
        place: Some((189, -103, 0, 0)),
    },
    Row {
        name: "format 2 is two numbers where the font does not know its point",
        words: &[2, 322, 900, 13],
        x_ppem: 12,
        point: None,
        place: Some((322, 900, 0, 0)),
    },
    Row {
        name: "format 2 is its point",
        words: &[2, 322, 900, 13],
        x_ppem: 12,
        point: Some(ContourPoint { x: 190, y: -45 }),
        place: Some((0, 0, 190, -45)),
    },
    Row {
        name: "it is its point only in the direction that has pixels",
        words: &[2, 322, 900, 13],
        x_ppem: 0,
        point: Some(ContourPoint { x: 190, y: -45 }),
        place: Some((322, 0, 0, -45)),
    },
    Row {
        name: "format 1 is no point",
        words: &[1, 189, 0xFF99],
        x_ppem: 12,
        point: Some(ContourPoint { x: 190, y: -45 }),
        place: Some((189, -103, 0, 0)),
    },
    Row {
        name: "format 3 has a device table for each number: one pixel across, and three down",
        words: &[3, 279, 1301, 10, 18, 11, 15, 1, 0x5540, 9, 11, 2, 0x0D00],
        x_ppem: 12,
        point: None,
        place: Some((279, 1301, 83, -300)),
    },
    Row {
        name: "an offset of 0 is no device table",
        words: &[3, 279, 1301, 0, 10, 9, 11, 2, 0x0D00],
        x_ppem: 12,
        point: None,
        place: Some((279, 1301, 0, -300)),
    },
    Row {
        name: "one of an unknown format is the origin",
        words: &[4, 7, 7],
        x_ppem: 12,
        point: None,
        place: Some((0, 0, 0, 0)),
    },
    Row {
        name: "one that is cut short is none",
        words: &[3, 279, 1301, 0],
        x_ppem: 12,
        point: None,
        place: None,
    },
];

/// Where an anchor is in a font of so many pixels across and 10 up.
fn place_of(table: &[u8], x_ppem: u16, point: Option<ContourPoint>) -> Option<Place> {
    let mut scale = Scale::of_em(1000);
    scale.x_ppem = x_ppem;
    scale.y_ppem = 10;
    let instance = Instance {
        scale,
        deltas: Deltas::NONE,
    };
    let anchor = Anchor::read(table, &instance, point)?;
    Some((anchor.x, anchor.y, anchor.x_delta, anchor.y_delta))
}

#[test]
fn anchors_are_read() -> Result<(), AllocError> {
    for row in &ROWS {
        let table = bytes_of(row.words)?;
        let place = place_of(&table, row.x_ppem, row.point);
        assert_eq!(place, row.place, "{}", row.name);
    }
    Ok(())
}

/// Anchors, pixels up, and the point that each names.
static NAMED: [(&[u16], u16, Option<u16>); 3] = [
    (&[2, 322, 900, 13], 0, None),
    (&[2, 322, 900, 13], 10, Some(13)),
    (&[1, 322, 900, 13], 10, None),
];

/// The point that a table names.
fn point_of(words: &[u16], y_ppem: u16) -> Result<Option<u16>, AllocError> {
    let table = bytes_of(words)?;
    let mut scale = Scale::of_em(1000);
    scale.y_ppem = y_ppem;
    Ok(named_point(&table, &scale))
}

/// A point is named at a size in pixels alone.
#[test]
fn points_are_named() -> Result<(), AllocError> {
    for (number, &(words, y_ppem, point)) in NAMED.iter().enumerate() {
        assert_eq!(point_of(words, y_ppem)?, point, "{number}");
    }
    Ok(())
}

#[test]
fn a_font_may_have_no_points() {
    assert!(NoPoints.contour_point(7, 13).is_none());
}

/// The anchor of a mark.
const MARK: Anchor = Anchor {
    x: 100,
    y: 200,
    x_delta: 3,
    y_delta: -4,
};

/// The anchor of its base.
const BASE: Anchor = Anchor {
    x: 300,
    y: 500,
    x_delta: 10,
    y_delta: 20,
};

/// Where an anchor is, and how far it is from there to another one, where an em is twice as long across
/// as it has font units, and half as long up.
fn way_of(anchor: &Anchor, other: &Anchor) -> [i32; 4] {
    let scale = Scale::new(1000, 2000, 500);
    [
        anchor.x_at(&scale),
        anchor.y_at(&scale),
        anchor.x_to(other, &scale),
        anchor.y_to(other, &scale),
    ]
}

#[test]
fn anchors_are_apart() {
    assert_eq!(way_of(&MARK, &BASE), [203, 96, 407, 174]);
    assert_eq!(way_of(&BASE, &MARK), [610, 270, -407, -174]);
}

/// Two marks, of the classes 2 and 0, each with its anchor.
const MARKS: &[u16] = &[2, 2, 10, 0, 16, 1, 11, 12, 1, 21, 22];

/// Two rows of two columns, of which the second row has no anchor in its second column.
const MATRIX: &[u16] = &[2, 10, 16, 22, 0, 1, 1, 2, 1, 3, 4, 1, 5, 6];

/// The first number of the table at which an array's offset leads.
fn format_and_x(table: &[u8]) -> Option<(u8, u8)> {
    let format = table.get(1)?;
    Some((*format, *table.get(3)?))
}

/// Marks, their classes, and the first numbers of their anchors.
static CLASSES: [(u32, u16, Option<(u8, u8)>); 3] =
    [(0, 2, Some((1, 11))), (1, 0, Some((1, 21))), (2, 0, None)];

/// The class of a mark and the first numbers of its anchor.
fn mark_of(index: u32) -> Result<(u16, Option<(u8, u8)>), AllocError> {
    let marks = bytes_of(MARKS)?;
    let anchor = format_and_x(mark_anchor(&marks, index));
    Ok((mark_class(&marks, index), anchor))
}

#[test]
fn marks_have_classes_and_anchors() -> Result<(), AllocError> {
    for &(index, class, anchor) in &CLASSES {
        assert_eq!(mark_of(index)?, (class, anchor), "{index}");
    }
    Ok(())
}

/// Rows, columns, and the first numbers of the anchors there.
static PLACES: [(u32, u16, Option<(u8, u8)>); 6] = [
    (0, 0, Some((1, 1))),
    (0, 1, Some((1, 3))),
    (1, 0, Some((1, 5))),
    (1, 1, None),
    (0, 2, None),
    (2, 0, None),
];

/// The first numbers of the anchor in a row and a column.
fn numbers_in(matrix: &[u8], row: u32, column: u16) -> Option<(u8, u8)> {
    format_and_x(anchor_in(matrix, row, column, 2)?)
}

#[test]
fn anchors_stand_in_rows_and_columns() -> Result<(), AllocError> {
    let matrix = bytes_of(MATRIX)?;
    for &(row, column, numbers) in &PLACES {
        assert_eq!(numbers_in(&matrix, row, column), numbers, "{row} {column}");
    }
    Ok(())
}

/// Ligatures, and the first numbers of their matrices.
static LIGATURES: [(u32, Option<(u8, u8)>); 3] = [(0, None), (1, Some((3, 7))), (2, None)];

/// The first numbers of the matrix of a ligature.
fn matrix_of(ligatures: &[u8], index: u32) -> Option<(u8, u8)> {
    format_and_x(ligature_matrix(ligatures, index)?)
}

#[test]
fn ligatures_have_matrices() -> Result<(), AllocError> {
    let ligatures = bytes_of(&[2, 0, 6, 3, 7])?;
    for &(index, numbers) in &LIGATURES {
        assert_eq!(matrix_of(&ligatures, index), numbers, "{index}");
    }
    Ok(())
}
