//! The characters of the table `cmap`. Which subtable is read, and which glyph a character has, the proved reader says; which
//! characters to ask for, the subtable's own ranges.

use crate::face::hb_face_t;
use crate::sfnt::{at_32, tail, u16_at, u32_at};

/// Tells of each character that has a glyph.
pub fn each(face: &hb_face_t, mut tell: impl FnMut(u32, u32)) {
    face.with_shaper(&face.plain_settings(), |face, _| {
        for (first, last) in ranges(face.characters.subtable) {
            for character in first..=last.min(0x10_FFFF) {
                if let Some(glyph) = face.glyph_index(character) {
                    tell(character, glyph.0.into());
                }
            }
        }
    });
}

/// The ranges in which a subtable may have characters (OpenType specification, `cmap`).
fn ranges(subtable: &[u8]) -> Vec<(u32, u32)> {
    match u16_at(subtable, 0) {
        0 => vec![(0, 255)],
        4 => segments(subtable),
        6 => counted(u16_at(subtable, 6).into(), u16_at(subtable, 8).into()),
        10 => counted(u32_at(subtable, 12), u32_at(subtable, 16)),
        12 | 13 => {
            let rows = tail(subtable, 16).chunks_exact(12).take(u32_at(subtable, 12) as usize);
            rows.map(|row| (u32_at(row, 0), u32_at(row, 4))).collect()
        }
        _ => Vec::new(),
    }
}

fn counted(first: u32, count: u32) -> Vec<(u32, u32)> {
    count.checked_sub(1).map(|more| (first, first.saturating_add(more))).into_iter().collect()
}

fn segments(subtable: &[u8]) -> Vec<(u32, u32)> {
    let count = usize::from(u16_at(subtable, 6)) / 2;
    let segment =
        |place: usize| (u32::from(u16_at(subtable, 16 + 2 * count + 2 * place)), u32::from(u16_at(subtable, 14 + 2 * place)));
    (0..count).map(segment).filter(|(first, last)| first <= last && *first != 0xFFFF).collect()
}

/// The variation selectors of a face, each with its default ranges and its own glyphs (OpenType specification, "Format 14").
pub fn selectors(face: &hb_face_t) -> impl Iterator<Item = (u32, &[u8], &[u8])> {
    let subtable = variations(face.table(b"cmap"));
    let rows = tail(subtable, 10).chunks_exact(11).take(u32_at(subtable, 6) as usize);
    rows.map(move |row| (u32_at(row, 0) >> 8, table_of(subtable, tail(row, 3)), table_of(subtable, tail(row, 7))))
}

/// A table whose offset in the subtable stands at the front of some bytes.
fn table_of<'a>(subtable: &'a [u8], bytes: &[u8]) -> &'a [u8] {
    match u32_at(bytes, 0) {
        0 => &[],
        offset => tail(subtable, offset as usize),
    }
}

/// The subtable of variation sequences.
fn variations(cmap: &[u8]) -> &[u8] {
    let records = tail(cmap, 4).chunks_exact(8).take(usize::from(u16_at(cmap, 2)));
    let place = records.enumerate().find(|(_, record)| (u16_at(record, 0), u16_at(record, 2)) == (0, 5));
    let subtable = place.map_or(&[][..], |(place, _)| at_32(cmap, 4 + 8 * place + 4));
    if u16_at(subtable, 0) == 14 { subtable } else { &[] }
}

/// Tells of each character that has a variation with this selector.
pub fn varied(face: &hb_face_t, selector: u32, mut tell: impl FnMut(u32)) {
    let Some((_, defaults, own)) = selectors(face).find(|(found, _, _)| *found == selector) else {
        return;
    };
    for row in tail(defaults, 4).chunks_exact(4).take(u32_at(defaults, 0) as usize) {
        let first = u32_at(row, 0) >> 8;
        (first..=first + u32::from(row[3])).for_each(&mut tell);
    }
    for row in tail(own, 4).chunks_exact(5).take(u32_at(own, 0) as usize) {
        tell(u32_at(row, 0) >> 8);
    }
}
