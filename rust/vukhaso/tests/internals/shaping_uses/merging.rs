// Written by tools/plain_rust from crates/shaping_uses. Do not edit.

//! Two characters are merged, and the cluster numbers read.

use vukhaso::internals::buffer::{UnicodeBuffer, hb_glyph_info_t};
use vukhaso::memory::{AllocError, TryIterator, Vec};

/// The cluster numbers of a text after its first two characters became one cluster.
///
/// # Errors
///
/// `Ok(None)` exactly where the text has fewer than two characters, or more than a buffer may hold.
/// `Err(AllocError)` comes only where the text is not empty.
///
/// # Proved
///
/// ```text
/// ensures is { IfOk result (λ numbers. MatchOption numbers
///     ((length (chars text.now) < 2) ⊎ (0x3FFF_FFFF < length (chars text.now)))
///     (λ each. (2 ≤ length (chars text.now)) × (length (chars text.now) ≤ 0x3FFF_FFFF)
///     × (each.items ≡ clusters (merge_clusters 0 2 (text_buffer text.now)).input))) }
/// ensures wants { OnErr result (0 < length (chars text.now)) }
/// ```
#[inline]
pub fn clusters_of_merged(text: &str) -> Result<Option<Vec<u32>>, AllocError> {
    let mut characters = UnicodeBuffer::new();
    if !characters.push_str(text)? || characters.len() < 2 {
        return Ok(None);
    }
    let mut buffer = characters.into_buffer();
    buffer.merge_clusters(0, 2);
    Ok(Some(cluster_numbers(buffer.info())?))
}

/// The cluster number of each glyph.
///
/// # Errors
///
/// `Err(AllocError)` comes only where there is a glyph.
///
/// # Proved
///
/// ```text
/// ensures is { IfOk result (λ each. each.items ≡ clusters glyphs.now) }
/// ensures wants { OnErr result (0 < length glyphs.now) }
/// ```
#[inline]
pub fn cluster_numbers(glyphs: &[hb_glyph_info_t]) -> Result<Vec<u32>, AllocError> {
    if glyphs.is_empty() {
        return Ok(Vec::new());
    }
    glyphs.iter().map(|glyph| glyph.cluster).try_into_vec()
}
