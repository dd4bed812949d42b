//! The directory of a font file, and numbers of its tables.

use crate::types::{hb_tag_t, tag};

/// A number of a table; 0 beyond its end.
pub fn u16_at(table: &[u8], at: usize) -> u16 {
    table.get(at..at + 2).map_or(0, |bytes| u16::from_be_bytes([bytes[0], bytes[1]]))
}

/// A signed number of a table; 0 beyond its end.
pub fn i16_at(table: &[u8], at: usize) -> i16 {
    u16_at(table, at).cast_signed()
}

/// A long number of a table; 0 beyond its end.
pub fn u32_at(table: &[u8], at: usize) -> u32 {
    table.get(at..at + 4).map_or(0, |bytes| u32::from_be_bytes([bytes[0], bytes[1], bytes[2], bytes[3]]))
}

/// The bytes of a table from a place on; none beyond its end.
pub fn tail(table: &[u8], at: usize) -> &[u8] {
    table.get(at..).unwrap_or(&[])
}

/// What a short offset leads to; none where it is 0.
pub fn at_16(table: &[u8], at: usize) -> &[u8] {
    match u16_at(table, at) {
        0 => &[],
        offset => tail(table, usize::from(offset)),
    }
}

/// What a long offset leads to; none where it is 0.
pub fn at_32(table: &[u8], at: usize) -> &[u8] {
    match u32_at(table, at) {
        0 => &[],
        offset => tail(table, offset as usize),
    }
}

/// How many fonts a file has.
pub use vukhaso::internals::font_tables::directory::face_count;

/// The table directory of the font with this index (OpenType specification, "Font Collections").
fn directory(file: &[u8], index: u32) -> &[u8] {
    if u32_at(file, 0) == tag(b"ttcf") { at_32(file, 12 + 4 * index as usize) } else { file }
}

/// The tags of the tables of the font with this index.
pub fn table_tags(file: &[u8], index: u32) -> Vec<hb_tag_t> {
    if index >= face_count(file).max(1) || face_count(file) == 0 {
        return Vec::new();
    }
    let directory = directory(file, index);
    let count = usize::from(u16_at(directory, 4));
    tail(directory, 12).chunks_exact(16).take(count).map(|row| u32_at(row, 0)).collect()
}

/// A font file of these tables, which stand in the order in which they are given.
pub fn file_of(version: u32, tables: &[(hb_tag_t, &[u8])]) -> Vec<u8> {
    let count = tables.len() as u16;
    let power = if count == 0 { 0 } else { count.ilog2() };
    let range = 16u32 << power;
    let mut file = version.to_be_bytes().to_vec();
    let range = if count == 0 { 0 } else { range };
    for number in [count, range as u16, power as u16, (u32::from(count) * 16).saturating_sub(range) as u16] {
        file.extend(number.to_be_bytes());
    }
    let mut offset = 12 + 16 * tables.len();
    let mut order: Vec<usize> = (0..tables.len()).collect();
    let mut places = vec![0; tables.len()];
    for (place, (_, table)) in places.iter_mut().zip(tables) {
        *place = offset;
        offset += table.len().next_multiple_of(4);
    }
    order.sort_by_key(|&number| tables[number].0);
    for number in order {
        let (tag, table) = tables[number];
        for word in [tag, checksum(table), places[number] as u32, table.len() as u32] {
            file.extend(word.to_be_bytes());
        }
    }
    for (_, table) in tables {
        file.extend_from_slice(table);
        file.resize(file.len().next_multiple_of(4), 0);
    }
    file
}

/// The sum of the words of a table.
fn checksum(table: &[u8]) -> u32 {
    table.chunks(4).fold(0, |sum, word| {
        let mut bytes = [0; 4];
        bytes[..word.len()].copy_from_slice(word);
        sum.wrapping_add(u32::from_be_bytes(bytes))
    })
}
