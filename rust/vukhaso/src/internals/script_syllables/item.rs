// Written by tools/plain_rust from crates/script_syllables. Do not edit.

//! What the shapers of syllables keep with an item: its category and its position, in the bytes that HarfBuzz's
//! `hb-ot-shaper.hh` gives them, the third and the fourth of `var2`; and what became of its glyph.

use crate::glyph::{GlyphPropsFlags, hb_glyph_info_t};
use crate::script_syllables::category::Category;
use crate::script_syllables::category::position::Position;
use crate::script_syllables::category::search::category_of;

/// The byte of an item's category.
///
/// # Proved
///
/// ```text
/// ensures { result ≡ items.category_byte info.now }
/// ```
#[inline]
pub fn category_byte(info: &hb_glyph_info_t) -> u8 {
    (info.var2 / 0x1_0000 % 0x100) as u8
}

/// Sets the byte of an item's category.
///
/// # Proved
///
/// ```text
/// ensures is { info.new ≡ items.with_category_byte byte info.old }
/// ensures cluster { info.new.cluster ≡ info.old.cluster }
/// ```
#[inline]
pub fn set_category_byte(info: &mut hb_glyph_info_t, byte: u8) {
    info.var2 = info.var2 & 0xFF00_FFFF | u32::from(byte) * 0x1_0000;
}

/// The category of an item.
///
/// # Proved
///
/// ```text
/// ensures { result ≡ items.category info.now }
/// ```
#[inline]
pub fn category(info: &hb_glyph_info_t) -> Category {
    Category::numbered(category_byte(info))
}

/// Sets the category of an item.
///
/// # Proved
///
/// ```text
/// ensures is { info.new ≡ items.with_category category info.old }
/// ensures cluster { info.new.cluster ≡ info.old.cluster }
/// ```
#[inline]
pub fn set_category(info: &mut hb_glyph_info_t, category: Category) {
    set_category_byte(info, category as u8);
}

/// Where an item stands in its syllable.
///
/// # Proved
///
/// ```text
/// ensures { result ≡ items.position info.now }
/// ```
#[inline]
pub fn position(info: &hb_glyph_info_t) -> Position {
    Position::numbered((info.var2 / 0x100_0000) as u8)
}

/// Sets where an item stands in its syllable.
///
/// # Proved
///
/// ```text
/// ensures is { info.new ≡ items.with_position position info.old }
/// ensures cluster { info.new.cluster ≡ info.old.cluster }
/// ```
#[inline]
pub fn set_position(info: &mut hb_glyph_info_t, position: Position) {
    info.var2 = info.var2 % 0x100_0000 + u32::from(position as u8) * 0x100_0000;
}

/// Whether an item is a consonant, or what takes signs as one. What became a ligature is none.
///
/// # Proved
///
/// ```text
/// ensures { result ≡ items.is_consonant info.now }
/// ```
#[inline]
pub fn is_consonant(info: &hb_glyph_info_t) -> bool {
    !is_ligated(info) && category(info).takes_signs()
}

/// Whether an item has a category, and is no ligature.
///
/// # Proved
///
/// ```text
/// ensures { result ≡ items.is_one wanted info.now }
/// ```
#[inline]
pub fn is_one(info: &hb_glyph_info_t, wanted: Category) -> bool {
    !is_ligated(info) && category(info).is(wanted)
}

/// Whether the item is a joiner or a non-joiner, and no ligature.
///
/// # Proved
///
/// ```text
/// ensures { result ≡ items.is_joiner info.now }
/// ```
#[inline]
pub fn is_joiner(info: &hb_glyph_info_t) -> bool {
    is_one(info, Category::Joiner) || is_one(info, Category::NonJoiner)
}

/// Whether the item is a halant, and no ligature.
///
/// # Proved
///
/// ```text
/// ensures { result ≡ items.is_halant info.now }
/// ```
#[inline]
pub fn is_halant(info: &hb_glyph_info_t) -> bool {
    is_one(info, Category::Halant)
}

/// The place behind the joiners that stand from a place on.
///
/// # Proved
///
/// ```text
/// ensures { result ≡ items.behind_joiners infos.now start }
/// ```
#[inline]
pub fn behind_joiners(infos: &[hb_glyph_info_t], start: usize) -> usize {
    match infos.get(start..) {
        Some(behind) => start + joiners(behind),
        None => start,
    }
}

/// How many joiners a list begins with.
fn joiners(infos: &[hb_glyph_info_t]) -> usize {
    for place in 0..infos.len() {
        if !is_joiner(&infos[place]) {
            return place;
        }
    }
    infos.len()
}

/// Lets each character keep its category and its position.
///
/// # Proved
///
/// ```text
/// ensures { clusters infos.new ≡ clusters infos.old }
/// ```
#[inline]
pub fn set_categories(infos: &mut [hb_glyph_info_t]) {
    for place in 0..infos.len() {
        let (category, position) = category_of(infos[place].glyph_id);
        place_in(&mut infos[place], category, position);
    }
}

/// Sets the category and the position of an item.
fn place_in(info: &mut hb_glyph_info_t, category: Category, position: Position) {
    set_category(info, category);
    set_position(info, position);
}

/// Gives the items from `start` to `end` the features of a mask.
///
/// # Proved
///
/// ```text
/// ensures is { infos.new ≡ items.masked mask start end infos.old }
/// ensures same { clusters infos.new ≡ clusters infos.old }
/// ```
#[inline]
pub fn add_mask(infos: &mut [hb_glyph_info_t], start: usize, end: usize, mask: u32) {
    let end = end.min(infos.len());
    if start <= end {
        add_to_all(&mut infos[start..end], mask);
    }
}

/// Gives all items of a list the features of a mask.
fn add_to_all(infos: &mut [hb_glyph_info_t], mask: u32) {
    for info in infos.iter_mut() {
        add_to(info, mask);
    }
}

/// Gives an item the features of a mask.
fn add_to(info: &mut hb_glyph_info_t, mask: u32) {
    info.mask |= mask;
}

/// Whether a glyph has one of these properties.
fn has(info: &hb_glyph_info_t, properties: GlyphPropsFlags) -> bool {
    info.glyph_props() & properties.bits() != 0
}

/// Whether a lookup put the glyph there.
///
/// # Proved
///
/// ```text
/// ensures { result ≡ items.is_substituted info.now }
/// ```
#[inline]
pub fn is_substituted(info: &hb_glyph_info_t) -> bool {
    has(info, GlyphPropsFlags::SUBSTITUTED)
}

/// Whether the glyph is a ligature that a lookup made.
///
/// # Proved
///
/// ```text
/// ensures { result ≡ items.is_ligated info.now }
/// ```
#[inline]
pub fn is_ligated(info: &hb_glyph_info_t) -> bool {
    has(info, GlyphPropsFlags::LIGATED)
}

/// Whether the glyph is one of several that a lookup made of one.
///
/// # Proved
///
/// ```text
/// ensures { result ≡ items.is_multiplied info.now }
/// ```
#[inline]
pub fn is_multiplied(info: &hb_glyph_info_t) -> bool {
    has(info, GlyphPropsFlags::MULTIPLIED)
}

/// Whether the glyph is a ligature, and not one of several that were made of it.
///
/// # Proved
///
/// ```text
/// ensures { result ≡ items.is_whole_ligature info.now }
/// ```
#[inline]
pub fn is_whole_ligature(info: &hb_glyph_info_t) -> bool {
    is_ligated(info) && !is_multiplied(info)
}

/// Forgets that the glyph is a ligature and one of several.
///
/// # Proved
///
/// ```text
/// ensures is { info.new ≡ items.without_ligature info.old }
/// ensures cluster { info.new.cluster ≡ info.old.cluster }
/// ```
#[inline]
pub fn forget_ligature(info: &mut hb_glyph_info_t) {
    let forgotten = GlyphPropsFlags::LIGATED.bits() | GlyphPropsFlags::MULTIPLIED.bits();
    info.set_glyph_props(info.glyph_props() & !forgotten);
}

/// Whether syllables pass over an item.
pub(crate) fn is_passed_over(info: &hb_glyph_info_t) -> bool {
    info.var2 / 0x100_0000 > 0
}
