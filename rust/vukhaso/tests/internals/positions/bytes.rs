//! Tables that are written as numbers of 16 bits.

use vukhaso::memory::{AllocError, Vec};

/// A table in numbers of 16 bits.
pub(crate) fn bytes_of(words: &[u16]) -> Result<Vec<u8>, AllocError> {
    let mut bytes = Vec::new();
    for word in words {
        bytes.extend_from_slice(&word.to_be_bytes())?;
    }
    Ok(bytes)
}
