// Written by tools/plain_rust from crates/shaping_passes. Do not edit.

//! The places at which the lines of a shaped text end, by its break flags and the widths of the lines.

use crate::buffer::{GlyphPosition, hb_glyph_info_t};
use crate::memory::{AllocError, Vec};

/// Where the lines of a text end, each before the glyph at that place. A line takes glyphs as long as
/// they fit its width, and ends where the text may be cut: where a cluster begins that is safe to break
/// before. Where it may not be cut within the width, the line is too wide, and ends at the first place
/// at which it may. The last width is that of the lines after it too, and with no width at all nothing
/// is cut. Widths and advances are in the units of the font.
///
/// Lines are taken along the list, so a text from right to left is to be reversed before. A text with
/// no glyph takes no memory.
///
/// # Requires
///
/// - `length glyphs.now ≡ length positions.now`
///
/// # Errors
///
/// `Err(AllocError)` where memory ran out.
///
/// # Proved
///
/// ```text
/// ensures exact { IfOk result (λ ends. ends.items ≡ places.line_ends glyphs.now positions.now widths.now) }
/// ensures cuts { IfOk result (λ ends. list_all (places.may_end glyphs.now) ends.items ≡ true) }
/// ensures rises { IfOk result (λ ends. rise nat_lt ends.items ≡ true) }
/// ensures memory { OnErr result (0 < length glyphs.now) }
/// ```
pub fn line_ends(
    glyphs: &[hb_glyph_info_t],
    positions: &[GlyphPosition],
    widths: &[i64],
) -> Result<Vec<usize>, AllocError> {
    debug_assert!(glyphs.len() == positions.len());
    let mut ends = Vec::new();
    let mut widths = widths;
    let mut start = 0;
    let mut end = 0;
    let mut taken: i128 = 0;
    let mut piece: i128 = 0;
    for (place, position) in positions.iter().enumerate() {
        piece += i128::from(position.x_advance);
        if !may_end(glyphs, place + 1) {
            continue;
        }
        if start < end && !is_within(taken + piece, widths) {
            ends.push(end)?;
            start = end;
            taken = 0;
            widths = widths_after(widths);
        }
        end = place + 1;
        taken += piece;
        piece = 0;
    }
    if start < end {
        ends.push(end)?;
    }
    Ok(ends)
}

/// Whether a line may end before the glyph at this place, or behind the last glyph.
///
/// # Requires
///
/// - `some: 0 < place`
/// - `within: place ≤ length glyphs.now`
fn may_end(glyphs: &[hb_glyph_info_t], place: usize) -> bool {
    debug_assert!(0 < place);
    debug_assert!(place <= glyphs.len());
    place == glyphs.len() || may_be_parted(&glyphs[place - 1], &glyphs[place])
}

/// Whether two neighbours may be parted.
fn may_be_parted(glyph: &hb_glyph_info_t, next: &hb_glyph_info_t) -> bool {
    glyph.cluster != next.cluster
        && !(if glyph.cluster < next.cluster {
            next
        } else {
            glyph
        })
        .unsafe_to_break()
}

/// Whether so wide a line fits the first of the widths.
fn is_within(width: i128, widths: &[i64]) -> bool {
    match widths {
        [first, ..] => width <= i128::from(*first),
        [] => true,
    }
}

/// The widths of the lines after the first one.
fn widths_after(widths: &[i64]) -> &[i64] {
    match widths {
        [_, rest @ ..] if !rest.is_empty() => rest,
        _ => widths,
    }
}
