// Written by tools/plain_rust from crates/glyph_lists. Do not edit.

//! The current glyph after a merge that changes no glyph behind it: mostly there is no need to write the others.

use crate::glyph::hb_glyph_info_t;
use crate::glyph_lists::cluster_order::ClusterOrder;
use crate::glyph_lists::cluster_reads::ClusterReads;
use crate::glyph_lists::clusters::set_cluster;

/// Whether the merge of the first two glyphs of the input leaves the first as it is, and all others
/// that stay: its cluster is not the higher one, and that of the second, where it is, goes on in no run
/// behind it. It reads three clusters at most, fewer than the merge may.
///
/// # Requires
///
/// - `fresh: reads.old.reads ≡ 0`
/// - `input_alone: reads.old.out ≡ []`
/// - `pair: 2 ≤ length reads.old.input`
#[inline(always)]
fn pair_keeps_head(reads: &mut ClusterReads) -> bool {
    let head = reads.cluster(0);
    let next = reads.cluster(1);
    if head < next {
        return reads.len() == 2 || reads.cluster(2) != next;
    }
    head == next
}

/// Whether the merge of the first `count` glyphs of the input leaves the first as it is, and all others
/// that stay, and marks nothing. It says so of at most two glyphs.
///
/// # Requires
///
/// - `count ≤ length input.now`
///
/// # Proved
///
/// ```text
/// ensures { result ≡ true → (out : List hb_glyph_info_t)
///     → LeavesHead (is_any order) count out input.now (slice_index_or input.now 0 zero_glyph) }
/// ```
#[inline(always)]
pub fn keeps_head(input: &[hb_glyph_info_t], count: usize, order: ClusterOrder) -> bool {
    debug_assert!(count <= input.len());
    if count < 2 {
        return true;
    }
    count == 2 && !order.is_any() && pair_keeps_head(&mut ClusterReads::new(&[], input))
}

/// Whether the merge of the two glyphs from `at` on lowers the first and no glyph before it: its
/// cluster is the higher one, and no run of it ends before it. It reads three clusters at most, fewer
/// than the merge may.
///
/// # Requires
///
/// - `fresh: reads.old.reads ≡ 0`
/// - `within: at ≤ length reads.old.out + length reads.old.input`
#[inline(always)]
fn pair_lowers_head(reads: &mut ClusterReads, at: usize) -> bool {
    if reads.len() - at < 2 {
        return false;
    }
    let head = reads.cluster(at);
    reads.cluster(at + 1) < head && (at == 0 || reads.cluster(at - 1) != head)
}

/// The current glyph as the merge of the input's first two glyphs lowers it. `None` where it does not,
/// where the run of the first goes on into `out`, where it marks, and of other counts.
///
/// # Requires
///
/// - `count ≤ length input.now`
///
/// # Proved
///
/// ```text
/// ensures { IfSome result (LeavesHead (is_any order) count out.now input.now) }
/// ```
#[inline(always)]
pub fn lowered_head(
    out: &[hb_glyph_info_t],
    input: &[hb_glyph_info_t],
    count: usize,
    order: ClusterOrder,
) -> Option<hb_glyph_info_t> {
    debug_assert!(count <= input.len());
    if count != 2 || order.is_any() {
        return None;
    }
    let mut reads = ClusterReads::new(out, input);
    if !pair_lowers_head(&mut reads, out.len()) {
        return None;
    }
    let mut head = input[0];
    set_cluster(&mut head, input[1].cluster, 0);
    Some(head)
}
