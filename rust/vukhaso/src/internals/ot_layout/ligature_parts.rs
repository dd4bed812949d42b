// Written by tools/plain_rust from crates/ot_layout. Do not edit.

//! The part of a glyph in a ligature, as HarfBuzz keeps it in the ligature properties: the number of the ligature in bits
//! 5 to 7, and below it for the ligature itself bit 4 and how many components it has, and for a mark the component that
//! it belongs to.

use crate::glyph::hb_glyph_info_t;

/// The bit of a ligature itself.
const IS_LIGATURE_BASE: u8 = 0x10;

/// The bits of a component, or of the count of components.
const COMPONENT: u8 = 0x0F;

/// The glyph property of a ligature.
const LIGATURE: u16 = 0x0004;

/// The number of the ligature that a glyph is or belongs to, or 0.
///
/// # Proved
///
/// ```text
/// ensures { result ≡ parts.ligature_id glyph.now }
/// ```
#[inline]
pub fn ligature_id(glyph: &hb_glyph_info_t) -> u8 {
    glyph.lig_props() / 32
}

/// The component that a glyph belongs to, or 0.
///
/// # Proved
///
/// ```text
/// ensures { result ≡ parts.ligature_component glyph.now }
/// ```
#[inline]
pub fn ligature_component(glyph: &hb_glyph_info_t) -> u8 {
    let properties = glyph.lig_props();
    if properties & IS_LIGATURE_BASE != 0 {
        0
    } else {
        properties & COMPONENT
    }
}

/// How many components a glyph has: 1 where it is no ligature.
///
/// # Proved
///
/// ```text
/// ensures { result ≡ parts.component_count glyph.now }
/// ```
#[inline]
pub fn component_count(glyph: &hb_glyph_info_t) -> u8 {
    let properties = glyph.lig_props();
    if glyph.glyph_props() & LIGATURE != 0 && properties & IS_LIGATURE_BASE != 0 {
        properties & COMPONENT
    } else {
        1
    }
}

/// The ligature properties of a ligature with this number and so many components.
///
/// # Proved
///
/// ```text
/// ensures { result ≡ parts.ligature_properties id components }
/// ```
#[inline]
pub fn ligature_properties(id: u8, components: u8) -> u8 {
    id % 8 * 32 | IS_LIGATURE_BASE | components & COMPONENT
}

/// The ligature properties of a mark that belongs to a component of the ligature with this number.
///
/// # Proved
///
/// ```text
/// ensures { result ≡ parts.mark_properties id component }
/// ```
#[inline]
pub fn mark_properties(id: u8, component: u8) -> u8 {
    id % 8 * 32 | component & COMPONENT
}
