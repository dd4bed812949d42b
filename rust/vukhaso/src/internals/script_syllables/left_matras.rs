// Written by tools/plain_rust from crates/script_syllables. Do not edit.

//! Vowel signs on the left of a syllable, of which the last one is seen first.

use crate::glyph::hb_glyph_info_t;
use crate::script_syllables::category::Category;
use crate::script_syllables::category::position::Position;
use crate::script_syllables::item::{category, position};
use crate::script_syllables::moves::turn;

/// An item of a syllable, by itself or with what is kept beside it.
pub trait SyllableItem {
    /// Whether it stands on the left: a vowel sign, or what belongs to one.
    ///
    /// # Proved
    ///
    /// That it returns.
    fn is_left(&self) -> bool;

    /// Whether it is a vowel sign that may stand on the left.
    ///
    /// # Proved
    ///
    /// That it returns.
    fn is_matra(&self) -> bool;
}

impl SyllableItem for hb_glyph_info_t {
    fn is_left(&self) -> bool {
        position(self) == Position::PreMatra
    }

    // Indic scripts have the first two categories, Khmer and Myanmar the third.
    fn is_matra(&self) -> bool {
        matches!(
            category(self),
            Category::Matra | Category::MatraPost | Category::VowelPre
        )
    }
}

/// Puts the vowel signs on the left, among items in the order of their positions, into reverse order,
/// since the last one is seen first. What belongs to a sign stays behind it.
///
/// # Proved
///
/// ```text
/// ensures { IsPermutation items.old items.new }
/// ```
#[inline]
pub fn turn_left_matras<T: SyllableItem>(items: &mut [T]) {
    let (first, end) = left_matras(items);
    if end < first.saturating_add(2) {
        return;
    }
    turn(items, first, end);
    let mut start = first;
    for place in first..end {
        start = turn_group(items, start, place);
    }
}

/// Puts what stands from a place to another into reverse order, if a vowel sign is the last of it.
/// Where the next group begins.
fn turn_group<T: SyllableItem>(items: &mut [T], start: usize, place: usize) -> usize {
    if place >= items.len() || !items[place].is_matra() {
        return start;
    }
    let end = place.saturating_add(1);
    turn(items, start, end);
    end
}

/// The first place of items on the left, and that behind the last; 0 twice where there is none.
fn left_matras<T: SyllableItem>(items: &[T]) -> (usize, usize) {
    let (mut first, mut end) = (0, 0);
    for place in 0..items.len() {
        if items[place].is_left() {
            if end == 0 {
                first = place;
            }
            end = place + 1;
        }
    }
    (first, end)
}
