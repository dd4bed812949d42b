// Written by tools/plain_rust from crates/unicode_tables. Do not edit.

//! The table of mirror images.

use crate::glyph::Mirrors;
use crate::unicode_tables::mirror_rows::MIRRORS;

/// The mirror images of characters in text that runs from right to left (Unicode, `BidiMirroring.txt`).
///
/// # Proved
///
/// ```text
/// ensures { result ≡ Some mirror_images }
/// ```
#[inline]
pub fn mirrors() -> Option<Mirrors<'static>> {
    Mirrors::new(&MIRRORS)
}
