//! Texts, a font and plans for tests.

use vukhaso::internals::buffer::{CombiningClasses, UnicodeBuffer, hb_buffer_t, hb_glyph_info_t};
use vukhaso::internals::script_items::FontGlyphs;
use vukhaso::internals::script_shapers::{ScriptPlan, ScriptShaper};

/// The class of a mark, since a table of classes has a row.
static CLASSES: [(char, u8); 1] = [('\u{302e}', 224)];

/// A font that has glyphs for the characters from one to another. Some have no width.
#[derive(Clone, Copy, Debug)]
pub(crate) struct TestFont {
    pub first: u32,
    pub last: u32,
    pub without_width: u32,
}

impl FontGlyphs for TestFont {
    fn has_glyph(&self, character: u32) -> bool {
        self.first <= character && character <= self.last
    }

    fn glyph_of(&self, character: u32) -> Option<u16> {
        if self.has_glyph(character) {
            u16::try_from(character).ok()
        } else {
            None
        }
    }

    fn horizontal_advance(&self, glyph: u32) -> i32 {
        if glyph == self.without_width {
            0
        } else if glyph < 10 {
            100
        } else {
            500
        }
    }

    fn is_mirrored(&self) -> bool {
        false
    }
}

/// A buffer over a text whose characters have their properties.
pub(crate) fn buffer_of(text: &str) -> hb_buffer_t {
    let mut characters = UnicodeBuffer::new();
    assert_eq!(characters.push_str(text), Ok(true));
    let mut buffer = characters.into_buffer();
    set_properties(buffer.info_slice_mut());
    buffer
}

/// Sets the properties of characters.
fn set_properties(infos: &mut [hb_glyph_info_t]) {
    for info in infos.iter_mut() {
        set_properties_of(info);
    }
}

/// Sets the properties of a character.
fn set_properties_of(info: &mut hb_glyph_info_t) {
    if let Some(classes) = CombiningClasses::new(&CLASSES) {
        assert!(char::from_u32(info.glyph_id).is_some());
        info.init_unicode_props(&mut 0, &classes);
    }
}

/// A plan in which each number that an item keeps has a mask of its own.
pub(crate) fn plan_of(shaper: ScriptShaper) -> ScriptPlan {
    ScriptPlan {
        shaper,
        is_mongolian: false,
        has_private_use: false,
        has_stch: false,
        does_fallback: false,
        has_gpos_mark: false,
        rlig_mask: 0x800,
        masks: [0, 0x10, 0x20, 0x40, 0x80, 0x100, 0x200, 0x400],
    }
}

/// The character at a place, and its cluster.
fn seen_at(glyphs: &[hb_glyph_info_t], place: usize) -> Option<(u32, u32)> {
    let glyph = glyphs.get(place)?;
    Some((glyph.glyph_id, glyph.cluster))
}

/// Asserts characters, and their clusters.
pub(crate) fn assert_characters(glyphs: &[hb_glyph_info_t], want: &[(u32, u32)]) {
    assert_eq!(glyphs.len(), want.len());
    for (place, &wanted) in want.iter().enumerate() {
        assert_eq!(seen_at(glyphs, place), Some(wanted), "at {place}");
    }
}
