// Written by tools/plain_rust from crates/shaping_bench. Do not edit.

//! Calls that go over a whole list with no output open, as each function requires. Each stands out of line, so that its
//! time does not depend on what stands beside it.

use vukhaso::internals::buffer::{_cluster_group_func, hb_buffer_t};

/// Deletes each glyph whose number is a multiple of three.
///
/// # Requires
///
/// - `buffer.old.have_output ≡ false`
///
/// # Proved
///
/// That it returns.
#[inline(never)]
pub fn delete_third_inplace(buffer: &mut hb_buffer_t) {
    debug_assert!(!buffer.have_output());
    buffer.delete_glyphs_inplace(|info| info.glyph_id % 3 == 0);
}

/// Puts the clusters into reverse order.
///
/// # Requires
///
/// - `buffer.old.have_output ≡ false`
///
/// # Proved
///
/// That it returns.
#[inline(never)]
pub fn reverse_groups(buffer: &mut hb_buffer_t) {
    debug_assert!(!buffer.have_output());
    buffer.reverse_groups(|a, b| _cluster_group_func(a, b), false);
}

/// Asks for the end of each cluster, and gives their sum.
///
/// # Requires
///
/// - `buffer.now.have_output ≡ false`
///
/// # Proved
///
/// That it returns.
#[inline(never)]
pub fn group_ends(buffer: &hb_buffer_t) -> usize {
    debug_assert!(!buffer.have_output());
    let len = buffer.len();
    let mut start = 0;
    let mut sum = 0usize;
    while start < len {
        start = buffer.group_end(start, |a, b| _cluster_group_func(a, b));
        sum = sum.wrapping_add(start);
    }
    sum
}

/// Sets ten masks, each other one over all clusters, and the others over half of them.
///
/// # Requires
///
/// - `buffer.old.have_output ≡ false`
///
/// # Proved
///
/// That it returns.
#[inline(never)]
pub fn ten_masks(buffer: &mut hb_buffer_t) {
    debug_assert!(!buffer.have_output());
    let len = u32::try_from(buffer.len()).unwrap_or(u32::MAX);
    for i in 0..10u32 {
        let bit = 1u32 << (8 + i);
        if i % 2 == 0 {
            buffer.set_masks(bit, bit, 0, u32::MAX);
        } else {
            let start = len / 20 * i;
            buffer.set_masks(bit, bit, start, start + len / 2);
        }
    }
}
