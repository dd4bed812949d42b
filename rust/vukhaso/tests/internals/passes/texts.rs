//! Buffers over texts, and what stands in them.

use vukhaso::internals::buffer::{UnicodeBuffer, hb_buffer_t, hb_glyph_info_t};
use vukhaso::memory::{AllocError, String};

/// A buffer over a text, with no output open.
pub(crate) fn buffer_of(text: &str) -> hb_buffer_t {
    let mut characters = UnicodeBuffer::new();
    assert_eq!(characters.push_str(text), Ok(true));
    characters.into_buffer()
}

/// The characters of glyphs.
fn characters_of(glyphs: &[hb_glyph_info_t]) -> Result<String, AllocError> {
    let mut found = String::new();
    for glyph in glyphs {
        found.push(char::from_u32(glyph.glyph_id).unwrap_or('?'))?;
    }
    Ok(found)
}

/// Asserts which characters stand in a list.
pub(crate) fn assert_characters(glyphs: &[hb_glyph_info_t], want: &str, name: &str) {
    match characters_of(glyphs) {
        Ok(found) => assert_eq!(found.as_str(), want, "{name}"),
        Err(_) => panic!("out of memory"),
    }
}

/// The cluster of the glyph at a place.
fn cluster_at(glyphs: &[hb_glyph_info_t], place: usize) -> Option<u32> {
    Some(glyphs.get(place)?.cluster)
}

/// Asserts the clusters of glyphs.
pub(crate) fn assert_clusters(glyphs: &[hb_glyph_info_t], want: &[u32]) {
    assert_eq!(glyphs.len(), want.len());
    for (place, &wanted) in want.iter().enumerate() {
        assert_eq!(cluster_at(glyphs, place), Some(wanted), "{place}");
    }
}
