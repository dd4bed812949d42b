// Written by tools/plain_rust from crates/font_face. Do not edit.

//! The table directory of a font, as it is searched when the font is opened: many tables are asked for, and most are lacking.

use crate::common::Tag;
use crate::font_tables::bytes::{part, u16_at, u32_at};
use crate::font_tables::directory::Tables;
use crate::font_tables::rows::rows_within;

/// How many slots the tags are spread over: by this number the tags of usual fonts fall into slots of their own.
const SLOTS: usize = 103;

/// The tables of a font, with the first record in each slot of tags.
#[derive(Clone, Copy, Debug)]
pub(crate) struct Directory<'a> {
    /// The tables.
    pub(crate) tables: Tables<'a>,
    count: u16,
    rows: [u16; SLOTS],
}

impl<'a> Directory<'a> {
    /// The directory of these tables.
    pub(crate) fn new(tables: Tables<'a>) -> Self {
        let count = record_count(tables.file, tables.directory);
        Directory {
            tables,
            count,
            rows: first_rows(tables.file, tables.directory, count),
        }
    }

    /// The table with this tag, as `Tables::table` finds it.
    pub(crate) fn table(&self, tag: Tag) -> &'a [u8] {
        let row = self.rows[tag.0 as usize % SLOTS];
        if row >= self.count {
            return &[];
        }
        if has_tag(self.tables.file, self.tables.directory, row, tag) {
            return table_of_record(self.tables.file, self.tables.directory, row);
        }
        self.tables.table(tag)
    }
}

/// How many of the records lie in the file.
fn record_count(file: &[u8], directory: u32) -> u16 {
    let declared = u16_at(file, directory as usize + 4).unwrap_or(0);
    rows_within(file, directory as usize + 12, 16, usize::from(declared)) as u16
}

/// The first record in each slot of tags, or one past all of them.
fn first_rows(file: &[u8], directory: u32, count: u16) -> [u16; SLOTS] {
    let mut rows = [u16::MAX; SLOTS];
    for row in 0..count {
        put_row(&mut rows, record_tag(file, directory, row), row);
    }
    rows
}

/// Puts a record with this tag, if it is there, into its slot, unless an earlier one is there.
fn put_row(rows: &mut [u16; SLOTS], tag: Option<u32>, row: u16) {
    if let Some(number) = tag {
        let slot = number as usize % SLOTS;
        if row < rows[slot] {
            rows[slot] = row;
        }
    }
}

/// The tag of a record.
fn record_tag(file: &[u8], directory: u32, row: u16) -> Option<u32> {
    u32_at(file, directory as usize + 12 + 16 * usize::from(row))
}

/// Whether a record has a tag.
fn has_tag(file: &[u8], directory: u32, row: u16, tag: Tag) -> bool {
    match record_tag(file, directory, row) {
        Some(number) => number == tag.0,
        None => false,
    }
}

/// The bytes that a record leads to.
fn table_of_record(file: &[u8], directory: u32, row: u16) -> &[u8] {
    let record = directory as usize + 12 + 16 * usize::from(row);
    let offset = u32_at(file, record + 8).unwrap_or(0);
    let size = u32_at(file, record + 12).unwrap_or(0);
    part(file, offset as usize, size as usize)
}
