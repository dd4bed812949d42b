//! Buffers and lists of glyphs for tests.

use vukhaso::internals::buffer::{UnicodeBuffer, hb_buffer_t, hb_glyph_info_t};
use vukhaso::memory::{AllocError, String};

/// Asserts the clusters and the masks of the glyphs.
pub(crate) fn assert_glyphs(glyphs: &[hb_glyph_info_t], want: &[(u32, u32)]) {
    assert!(glyphs.len() == want.len());
    for (glyph, pair) in glyphs.iter().zip(want) {
        assert!((glyph.cluster, glyph.mask) == *pair, "{want:?}");
    }
}

/// A buffer over a text, with no output open.
pub(crate) fn buffer_of(text: &str) -> hb_buffer_t {
    let mut characters = UnicodeBuffer::new();
    push(&mut characters, text);
    characters.into_buffer()
}

pub(crate) fn push(text: &mut UnicodeBuffer, part: &str) {
    assert!(text.push_str(part) == Ok(true));
}

pub(crate) fn add(text: &mut UnicodeBuffer, character: char, cluster: u32) {
    assert!(text.add(character, cluster) == Ok(true));
}

/// Asserts the ids of the glyphs.
pub(crate) fn assert_ids(glyphs: &[hb_glyph_info_t], want: &[u32]) {
    assert!(glyphs.len() == want.len());
    for (glyph, id) in glyphs.iter().zip(want.iter()) {
        assert!(glyph.glyph_id == *id, "{want:?}");
    }
}

pub(crate) fn clear_output(buffer: &mut hb_buffer_t) {
    assert!(!buffer.have_output());
    buffer.clear_output();
}

pub(crate) fn clear_positions(buffer: &mut hb_buffer_t) {
    assert!(!buffer.have_output());
    buffer.clear_positions();
}

/// Opens an output, and reads a glyph.
pub(crate) fn read_one(buffer: &mut hb_buffer_t) {
    clear_output(buffer);
    assert!(buffer.lookahead_len() > 0);
    assert!(buffer.next_glyph() == Ok(true));
}

/// A text so many times.
pub(crate) fn long_text(part: &str, times: usize) -> Result<String, AllocError> {
    let mut text = String::new();
    for _ in 0..times {
        text.push_str(part)?;
    }
    Ok(text)
}
