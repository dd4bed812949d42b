// Written by tools/plain_rust from crates/glyph_lists. Do not edit.

//! Deletion of glyphs in the list itself: a walk that deletes some, and moves each of the others down at most once.

use crate::glyph::{GlyphPosition, hb_glyph_info_t};
use crate::glyph_lists::cluster_order::ClusterOrder;
use crate::glyph_lists::deletion::{keep_cluster, merges_next};

/// Deletes the glyphs for which `deletes` holds as they stand when the walk comes to them, and moves
/// the others down, and the items of `pos` with them, where there is one for each glyph. Returns how
/// many glyphs are left, and whether a deleted one was merged with the next, where merges mark. It
/// stands out of line: a walk of many moves needs registers of its own.
///
/// # Requires
///
/// - `callable: F.IsAlwaysCallable deletes.now`
///
/// # Proved
///
/// ```text
/// ensures within { result.0 ≤ length info.old }
/// ensures len { length info.new ≡ length info.old }
/// ensures pos_len { length pos.new ≡ length pos.old }
/// ensures info { (test : hb_glyph_info_t → Bool)
///     → ((x : _) (r : _) → F.post deletes.now x r → r ≡ test x.now)
///     → take result.0 info.new ≡ left_by_walk (is_any order) test info.old }
/// ensures pos { (test : hb_glyph_info_t → Bool)
///     → ((x : _) (r : _) → F.post deletes.now x r → r ≡ test x.now)
///     → length pos.old ≡ length info.old
///     → take result.0 pos.new ≡ kept_beside (is_any order) test (sides_at 0 0 info.old) pos.old }
/// ensures merges { (test : hb_glyph_info_t → Bool)
///     → ((x : _) (r : _) → F.post deletes.now x r → r ≡ test x.now)
///     → result.1 ≡ (is_any order && walk_merges (is_any order) test (length info.old)
///     (sides_at 0 0 info.old)) }
/// ```
#[inline(never)]
pub fn delete_in_place<F: Fn(&hb_glyph_info_t) -> bool>(
    info: &mut [hb_glyph_info_t],
    pos: &mut [GlyphPosition],
    order: ClusterOrder,
    deletes: &F,
) -> (usize, bool) {
    let mut kept = 0;
    let mut merges = false;
    for at in 0..info.len() {
        if deletes(&info[at]) {
            merges |= delete_at(info, kept, at, order);
        } else {
            keep_at(info, kept, at);
            keep_at(pos, kept, at);
            kept += 1;
        }
    }
    (kept, merges)
}

/// Deletes the glyph at `at` of a walk that kept the first `kept` glyphs. Returns whether it was merged
/// with the next one, where merges mark.
///
/// # Requires
///
/// - `order: kept ≤ at`
/// - `within: at < length info.old`
#[inline(always)]
fn delete_at(info: &mut [hb_glyph_info_t], kept: usize, at: usize, order: ClusterOrder) -> bool {
    debug_assert!(kept <= at);
    debug_assert!(at < info.len());
    let (front, rest) = info.split_at_mut(at);
    let out = &mut front[..kept];
    let merges = order.is_any() && merges_next(out, rest);
    keep_cluster(out, rest, order);
    merges
}

/// Keeps the item at `at` of a walk that kept the first `kept` items, where there is one.
///
/// # Requires
///
/// - `kept ≤ at`
#[inline(always)]
fn keep_at<T: Copy>(items: &mut [T], kept: usize, at: usize) {
    debug_assert!(kept <= at);
    if at < items.len() {
        items[kept] = items[at];
    }
}
