// Written by tools/plain_rust from crates/shaping_uses. Do not edit.

//! Groups of neighbours: clusters are counted and put into reverse order, and marks stay behind their bases.

use vukhaso::internals::buffer::{_cluster_group_func, hb_buffer_t};

/// Puts the clusters of a line into reverse order, as a line from right to left asks for, each cluster
/// in its own order, with their positions, where there are any.
///
/// # Requires
///
/// That no output is open.
///
/// - `buffer.old.have_output ≡ false`
///
/// # Proved
///
/// ```text
/// ensures { buffer.new ≡ step.groups_in_reverse share_cluster buffer.old }
/// ```
#[inline]
pub fn reverse_clusters(buffer: &mut hb_buffer_t) {
    debug_assert!(!buffer.have_output());
    buffer.reverse_groups(_cluster_group_func, false);
}

/// Puts the glyphs of a line into reverse order, except that each glyph with one of the ids of `marks`
/// stays behind the glyph before it. Each such group is merged into one cluster before, where `merge`
/// says so.
///
/// # Requires
///
/// That no output is open.
///
/// - `buffer.old.have_output ≡ false`
///
/// # Proved
///
/// ```text
/// ensures { buffer.new ≡ step.reverse_groups (goes_on_at marks.now) merge buffer.old }
/// ```
#[inline]
pub fn reverse_with_marks(buffer: &mut hb_buffer_t, marks: &[u32], merge: bool) {
    debug_assert!(!buffer.have_output());
    buffer.reverse_groups(|_, next| marks.contains(&next.glyph_id), merge);
}

/// How many clusters a line has, where each is a run of neighbours.
///
/// # Requires
///
/// That no output is open.
///
/// - `buffer.now.have_output ≡ false`
///
/// # Proved
///
/// ```text
/// ensures { result ≡ length (group_lens share_cluster buffer.now.input) }
/// ```
#[inline]
pub fn count_clusters(buffer: &hb_buffer_t) -> usize {
    debug_assert!(!buffer.have_output());
    let mut count = 0;
    let mut start = 0;
    while start < buffer.len() {
        start = buffer.group_end(start, _cluster_group_func);
        count += 1;
    }
    count
}
