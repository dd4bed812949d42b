// Written by tools/plain_rust from crates/script_joining. Do not edit.

//! How far a mark is stretched over a word (OpenType, feature `stch`).

use crate::glyph::hb_gc::*;
use crate::glyph::{GlyphPosition, hb_glyph_info_t};
use crate::script_items::font::FontGlyphs;
use crate::script_items::item::{general_category, is_default_ignorable, shaper_byte};

/// The numbers that the pieces of a mark keep, those of `StchFixed` and `StchRepeating`.
pub(crate) const FIXED: u8 = 8;

pub(crate) const REPEATING: u8 = 9;

/// A mark in pieces that is stretched over the word before it.
#[derive(Clone, Copy, Debug)]
pub(crate) struct Stretch {
    /// Where the word begins.
    pub word: usize,
    /// Where the pieces begin.
    pub start: usize,
    /// Where they end.
    pub end: usize,
    /// How many pieces are put in.
    pub added: i64,
    /// How often each repeating piece is put in once more.
    pub copies: i64,
    /// By how much pieces that were put in overlap.
    pub overlap: i64,
    /// Where the last piece is drawn.
    pub offset: i64,
}

/// The widths of a mark's pieces, and of the word.
#[derive(Clone, Copy, Debug, Default)]
struct Widths {
    word: i64,
    fixed: i64,
    repeating: i64,
    repeating_count: i64,
}

/// How pieces are fitted to a word.
#[derive(Clone, Copy, Debug)]
struct Fit {
    /// How often each repeating piece is put in once more.
    copies: i64,
    /// By how much pieces that were put in overlap.
    overlap: i64,
    /// What is left of the word, beside the pieces that are not repeated.
    left: i64,
}

/// Whether the glyph is a piece of a mark that is stretched.
fn is_piece(info: &hb_glyph_info_t) -> bool {
    matches!(shaper_byte(info), FIXED | REPEATING)
}

/// The last mark in pieces that ends at `end` or before.
///
/// # Requires
///
/// - `length positions.now ≡ length infos.now`
pub(crate) fn last_stretch<F: FontGlyphs>(
    infos: &[hb_glyph_info_t],
    positions: &[GlyphPosition],
    end: usize,
    font: &F,
) -> Option<Stretch> {
    debug_assert!(positions.len() == infos.len());
    let end = run_start(infos, end.min(infos.len()), |info| !is_piece(info));
    let start = run_start(infos, end, is_piece);
    if start == end {
        return None;
    }
    let word = run_start(infos, start, is_of_word);
    let widths = measured(infos, positions, font, word, start, end);
    let fit = fitted(&widths, font.is_mirrored());
    Some(Stretch {
        word,
        start,
        end,
        added: fit.copies.wrapping_mul(widths.repeating_count),
        copies: fit.copies,
        overlap: fit.overlap,
        offset: fit.left / 2,
    })
}

/// The widths of the word from a place up to another, and of the pieces behind it.
///
/// # Requires
///
/// - `order: word ≤ start`
/// - `behind: start ≤ end`
/// - `within: end ≤ length positions.now`
fn measured<F: FontGlyphs>(
    infos: &[hb_glyph_info_t],
    positions: &[GlyphPosition],
    font: &F,
    word: usize,
    start: usize,
    end: usize,
) -> Widths {
    debug_assert!(word <= start);
    debug_assert!(start <= end);
    debug_assert!(end <= positions.len());
    Widths {
        word: width_of(&positions[word..start]),
        ..pieces_widths(infos, start, end, font)
    }
}

/// How far the line goes on over these glyphs.
fn width_of(positions: &[GlyphPosition]) -> i64 {
    let mut width = 0i64;
    for position in positions {
        width = width.wrapping_add(i64::from(position.x_advance));
    }
    width
}

/// The widths of the pieces from a place up to another.
fn pieces_widths<F: FontGlyphs>(
    infos: &[hb_glyph_info_t],
    start: usize,
    end: usize,
    font: &F,
) -> Widths {
    let mut widths = Widths::default();
    for info in infos.iter().take(end).skip(start) {
        add_piece(&mut widths, info, font);
    }
    widths
}

/// Where the items begin that pass a test and end at a place.
///
/// # Requires
///
/// - `callable: T.IsAlwaysCallable test`
/// - `within: end ≤ length infos.now`
fn run_start<T: Fn(&hb_glyph_info_t) -> bool>(
    infos: &[hb_glyph_info_t],
    end: usize,
    test: T,
) -> usize {
    debug_assert!(end <= infos.len());
    let mut start = end;
    while start > 0 && test(&infos[start - 1]) {
        start -= 1;
    }
    start
}

/// Adds the width of a piece.
fn add_piece<F: FontGlyphs>(widths: &mut Widths, info: &hb_glyph_info_t, font: &F) {
    let width = i64::from(font.horizontal_advance(info.glyph_id));
    if shaper_byte(info) == FIXED {
        widths.fixed = widths.fixed.wrapping_add(width);
    } else {
        widths.repeating = widths.repeating.wrapping_add(width);
        widths.repeating_count = widths.repeating_count.wrapping_add(1);
    }
}

/// How often pieces are repeated so that they fit the word: once more than they fit in, drawn over each
/// other, where a part of the word would be left. Where glyphs are mirrored, all widths are negative,
/// and are compared without their signs.
fn fitted(widths: &Widths, is_mirrored: bool) -> Fit {
    let left = widths.word.wrapping_sub(widths.fixed);
    let room = unsigned_width(left, is_mirrored);
    let repeating = unsigned_width(widths.repeating, is_mirrored);
    let mut copies = if room > repeating && repeating > 0 {
        (room / repeating).wrapping_sub(1)
    } else {
        0
    };
    let shortfall = room.wrapping_sub(repeating.wrapping_mul(copies.wrapping_add(1)));
    if shortfall > 0 && widths.repeating_count > 0 {
        copies = copies.wrapping_add(1);
        let excess = copies
            .wrapping_add(1)
            .wrapping_mul(repeating)
            .wrapping_sub(room);
        let added = copies.wrapping_mul(widths.repeating_count);
        if excess > 0 && added > 0 {
            return Fit {
                copies,
                overlap: excess / added,
                left: 0,
            };
        }
    }
    Fit {
        copies,
        overlap: 0,
        left,
    }
}

/// A width without the sign that mirrored glyphs have.
fn unsigned_width(width: i64, is_mirrored: bool) -> i64 {
    if is_mirrored {
        0i64.wrapping_sub(width)
    } else {
        width
    }
}

/// Whether the glyph belongs to the word that a mark is stretched over.
fn is_of_word(info: &hb_glyph_info_t) -> bool {
    !is_piece(info)
        && (is_default_ignorable(info) || is_of_word_by_category(general_category(info)))
}

/// Whether characters of the category belong to words of Arabic.
fn is_of_word_by_category(category: u32) -> bool {
    matches!(
        category,
        RB_UNICODE_GENERAL_CATEGORY_UNASSIGNED
            | RB_UNICODE_GENERAL_CATEGORY_PRIVATE_USE
            | RB_UNICODE_GENERAL_CATEGORY_MODIFIER_LETTER
            | RB_UNICODE_GENERAL_CATEGORY_OTHER_LETTER
            | RB_UNICODE_GENERAL_CATEGORY_SPACING_MARK
            | RB_UNICODE_GENERAL_CATEGORY_ENCLOSING_MARK
            | RB_UNICODE_GENERAL_CATEGORY_NON_SPACING_MARK
            | RB_UNICODE_GENERAL_CATEGORY_DECIMAL_NUMBER
            | RB_UNICODE_GENERAL_CATEGORY_LETTER_NUMBER
            | RB_UNICODE_GENERAL_CATEGORY_OTHER_NUMBER
            | RB_UNICODE_GENERAL_CATEGORY_CURRENCY_SYMBOL
            | RB_UNICODE_GENERAL_CATEGORY_MODIFIER_SYMBOL
            | RB_UNICODE_GENERAL_CATEGORY_MATH_SYMBOL
            | RB_UNICODE_GENERAL_CATEGORY_OTHER_SYMBOL
    )
}
