//! Chains of `morx` over lines of glyphs.

use crate::aat::tables::bytes_of;
use vukhaso::internals::aat_substitution::deletion::is_deleted;
use vukhaso::internals::aat_substitution::{
    ChainFlags, Substitution, remove_deleted_glyphs, substitute,
};
use vukhaso::internals::aat_tables::Metamorphosis;
use vukhaso::internals::buffer::{UnicodeBuffer, hb_buffer_t, hb_glyph_info_t};
use vukhaso::internals::common::Direction;
use vukhaso::internals::font_tables::gdef::Gdef;
use vukhaso::memory::{AllocError, Vec};

/// Lines of both kinds.
const ALL_DIRECTIONS: u16 = 0x2000;

/// A table `morx` with one chain, which is on, and one subtable of this kind.
fn morx_of(kind: u16, bits: u16, subtable: &[u16]) -> Result<Vec<u8>, AllocError> {
    let length = (12 + 2 * subtable.len().min(1000)) as u16;
    let head = [
        2,
        0,
        0,
        1,
        0,
        1,
        0,
        16 + length,
        0,
        0,
        0,
        1,
        0,
        length,
        bits,
        kind,
        0,
        1,
    ];
    let mut morx = bytes_of(&head)?;
    for byte in bytes_of(subtable)?.iter() {
        morx.push(*byte)?;
    }
    Ok(morx)
}

/// The glyphs of a line.
fn fill(infos: &mut [hb_glyph_info_t], glyphs: &[u32]) {
    for (place, info) in infos.iter_mut().enumerate() {
        *info = hb_glyph_info_t {
            glyph_id: glyphs.get(place).copied().unwrap_or(0),
            mask: 0,
            cluster: (place % 1000) as u32,
            var1: 0,
            var2: 0,
        };
    }
}

/// A line of these glyphs.
fn line_of(direction: Direction, glyphs: &[u32]) -> Result<hb_buffer_t, AllocError> {
    let mut text = UnicodeBuffer::new();
    for _glyph in glyphs {
        let _ = text.push_str("a")?;
    }
    let mut buffer = text.into_buffer();
    fill(buffer.info_slice_mut(), glyphs);
    buffer.enter();
    buffer.direction = direction;
    Ok(buffer)
}

/// The number and the cluster of each glyph that a table makes of a line; `None` where a call was
/// refused.
fn shaped(
    morx: &[u8],
    direction: Direction,
    glyphs: &[u32],
) -> Result<Option<Vec<(u32, u32)>>, AllocError> {
    let mut buffer = line_of(direction, glyphs)?;
    if !apply(&mut buffer, morx)? {
        return Ok(None);
    }
    let mut shaped = Vec::new();
    for info in buffer.info() {
        shaped.push((info.glyph_id, info.cluster))?;
    }
    Ok(Some(shaped))
}

/// Applies a table to a line, and takes out what it deletes.
fn apply(buffer: &mut hb_buffer_t, morx: &[u8]) -> Result<bool, AllocError> {
    debug_assert!(!buffer.have_output());
    let table = Metamorphosis::new(morx, 100)?;
    let flags = ChainFlags::new(&table, &[])?;
    if !substitute_all(buffer, &table, &flags)? {
        return Ok(false);
    }
    remove_deleted_glyphs(buffer);
    Ok(true)
}

/// Applies the chains of a table with these flags, where no glyph has a class.
fn substitute_all(
    buffer: &mut hb_buffer_t,
    table: &Metamorphosis,
    flags: &ChainFlags,
) -> Result<bool, AllocError> {
    debug_assert!(!buffer.have_output());
    let gdef = Gdef::new(&[]);
    substitute(
        buffer,
        &Substitution {
            table,
            flags,
            gdef: &gdef,
        },
    )
}

/// Whether a table with this subtable makes these glyphs of a line.
fn makes(kind: u16, bits: u16, subtable: &[u16], glyphs: &[u32], wanted: &[(u32, u32)]) -> bool {
    let Ok(morx) = morx_of(kind, bits, subtable) else {
        return false;
    };
    match shaped(morx.as_slice(), Direction::LeftToRight, glyphs) {
        Ok(Some(shaped)) => shaped.as_slice() == wanted,
        _ => false,
    }
}

/// Each glyph 5 becomes a 9.
const NINES: [u16; 8] = [6, 4, 1, 4, 0, 0, 5, 9];

#[test]
fn glyphs_are_replaced_one_by_one() {
    assert!(makes(4, 0, &NINES, &[5, 6, 5], &[(9, 0), (6, 1), (9, 2)]));
}

#[test]
fn subtables_for_vertical_lines_are_passed_over() {
    assert!(makes(4, 0x8000, &NINES, &[5], &[(5, 0)]));
    assert!(makes(4, 0x8000 + ALL_DIRECTIONS, &NINES, &[5], &[(9, 0)]));
}

/// Of two glyphs 10 and 11 the first changes places with the second.
const SWAPPED: [u16; 34] = [
    0, 5, 0, 16, 0, 26, 0, 56, 8, 10, 2, 4, 4, 0, 0, 0, 0, 1, 0, 0, 0, 0, 1, 0, 0, 0, 0, 2, 0, 0,
    2, 0x8000, 0, 0x2003,
];

#[test]
fn glyphs_change_places_in_one_cluster() {
    assert!(makes(
        0,
        0,
        &SWAPPED,
        &[10, 11, 7],
        &[(11, 0), (10, 0), (7, 2)]
    ));
}

/// A glyph 10 becomes a 40.
const FORTIES: [u16; 44] = [
    0, 5, 0, 20, 0, 30, 0, 60, 0, 76, 8, 10, 2, 4, 4, 0, 0, 0, 0, 1, 0, 0, 0, 0, 1, 0, 0, 0, 0, 1,
    0, 0, 0xFFFF, 0xFFFF, 0, 0, 0xFFFF, 0, 0, 4, 8, 10, 1, 40,
];

#[test]
fn glyphs_are_replaced_in_contexts() {
    assert!(makes(1, 0, &FORTIES, &[10, 7], &[(40, 0), (7, 1)]));
}

/// A glyph 10 and an 11 become a 20.
const LIGATURE: [u16; 54] = [
    0, 6, 0, 28, 0, 38, 0, 74, 0, 92, 0, 100, 0, 104, 8, 10, 2, 4, 5, 0, 0, 0, 0, 1, 0, 0, 0, 0, 0,
    1, 0, 0, 0, 0, 0, 1, 2, 0, 0, 0, 2, 0x8000, 0, 0, 0xA000, 0, 0x3FFF, 0xFFF6, 0xBFFF, 0xFFF6, 0,
    0, 20, 0,
];

#[test]
fn components_become_a_ligature() {
    assert!(makes(
        2,
        0,
        &LIGATURE,
        &[7, 10, 11, 10],
        &[(7, 0), (20, 1), (10, 3)]
    ));
}

/// Behind a glyph 10 comes a 30.
const INSERTED: [u16; 39] = [
    0, 5, 0, 20, 0, 30, 0, 60, 0, 76, 8, 10, 2, 4, 4, 0, 0, 0, 0, 1, 0, 0, 0, 0, 1, 0, 0, 0, 0, 1,
    0, 0, 0xFFFF, 0xFFFF, 0, 0x20, 0, 0xFFFF, 30,
];

#[test]
fn glyphs_are_put_in_behind_others() {
    assert!(makes(
        5,
        0,
        &INSERTED,
        &[10, 7],
        &[(10, 0), (30, 0), (7, 1)]
    ));
}

#[test]
fn deleted_glyphs_have_the_last_number() {
    let info = hb_glyph_info_t {
        glyph_id: 0xFFFF,
        ..hb_glyph_info_t::default()
    };
    assert!(is_deleted(&info));
}
