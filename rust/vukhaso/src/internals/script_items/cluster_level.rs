// Written by tools/plain_rust from crates/script_items. Do not edit.

//! The cluster level of a buffer, as the steps of shaping ask for it.

use crate::buffer::cluster_level::{
    HB_BUFFER_CLUSTER_LEVEL_CHARACTERS, HB_BUFFER_CLUSTER_LEVEL_GRAPHEMES,
};
use crate::buffer::hb_buffer_t;

/// Whether clusters may stand in any order at the buffer's level.
///
/// # Proved
///
/// ```text
/// ensures { result ≡ any_order buffer.now }
/// ```
#[inline]
pub fn allows_any_order(buffer: &hb_buffer_t) -> bool {
    buffer.cluster_level == HB_BUFFER_CLUSTER_LEVEL_CHARACTERS
        || buffer.cluster_level == HB_BUFFER_CLUSTER_LEVEL_GRAPHEMES
}
