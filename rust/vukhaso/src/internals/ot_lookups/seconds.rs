// Written by tools/plain_rust from crates/ot_lookups. Do not edit.

//! The second glyphs of ligatures: where none of them is the next glyph, no ligature stands at the cursor.

use crate::font_tables::bytes::{tail, u16_at};
use crate::glyph_digests::digest::Digest;
use crate::ot_lookups::sets::set_at;

/// The digest of the second glyphs of all ligatures of a subtable; `None` where one has no second
/// glyph, or there are more sets and ligatures than may be read, which is then none.
#[inline(always)]
pub(crate) fn seconds_of(table: &[u8], room: &mut usize) -> Option<Digest> {
    let mut digest = Digest::new();
    for index in 0..u32::from(u16_at(table, 4).unwrap_or(0)) {
        if !add_seconds(&mut digest, set_at(table, index), room) {
            return None;
        }
    }
    Some(digest)
}

/// Adds the second glyphs of the ligatures of a set; false where one has none.
#[inline(always)]
fn add_seconds(digest: &mut Digest, set: &[u8], room: &mut usize) -> bool {
    let count = usize::from(u16_at(set, 0).unwrap_or(0));
    if *room <= count {
        *room = 0;
        return false;
    }
    *room -= count + 1;
    for index in 0..count {
        if !add_second_at(digest, set, index) {
            return false;
        }
    }
    true
}

/// Adds the second glyph of the ligature of this number in a set; false where it has none.
///
/// # Requires
///
/// - `index < 65536`
#[inline(always)]
fn add_second_at(digest: &mut Digest, set: &[u8], index: usize) -> bool {
    debug_assert!(index < 65536);
    match u16_at(set, 2 + 2 * index) {
        None | Some(0) => true,
        Some(offset) => add_second(digest, tail(set, usize::from(offset))),
    }
}

/// Adds the second glyph of a ligature; false where it has none.
#[inline(always)]
fn add_second(digest: &mut Digest, ligature: &[u8]) -> bool {
    if u16_at(ligature, 2).unwrap_or(0) <= 1 {
        return false;
    }
    if let Some(second) = u16_at(tail(ligature, 4), 0) {
        digest.add(u32::from(second));
    }
    true
}
