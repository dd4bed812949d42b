// Written by tools/plain_rust from crates/glyph_lists. Do not edit.

//! Groups of neighbours in a list.

use crate::glyph::hb_glyph_info_t;

/// Puts the items from `start` to `end` into reverse order.
///
/// # Requires
///
/// - `order: start ≤ end`
/// - `within: end ≤ length items.old`
///
/// # Proved
///
/// ```text
/// ensures { items.new ≡ of.reverse_range start end items.old }
/// ```
#[inline]
pub fn reverse_range<T>(items: &mut [T], start: usize, end: usize) {
    debug_assert!(start <= end);
    debug_assert!(end <= items.len());
    items[start..end].reverse();
}

/// The end of the group that begins at `start`, where `group` says of two neighbours whether they are
/// in one group.
///
/// # Requires
///
/// - `within: start < length info.now`
/// - `callable: F.IsAlwaysCallable group.now`
///
/// # Proved
///
/// ```text
/// ensures after { start + 1 ≤ result }
/// ensures until { result ≤ length info.now }
/// ensures is { (test : of.Test)
///     → ((x y : _) (r : _) → F.post group.now x y r → r ≡ test x.now y.now)
///     → result ≡ of.group_end test start info.now }
/// ```
#[inline]
pub fn group_end<F: Fn(&hb_glyph_info_t, &hb_glyph_info_t) -> bool>(
    info: &[hb_glyph_info_t],
    start: usize,
    group: &F,
) -> usize {
    debug_assert!(start < info.len());
    let mut last = &info[start];
    let mut end = start + 1;
    while end < info.len() {
        let next = &info[end];
        if !group(last, next) {
            break;
        }
        last = next;
        end += 1;
    }
    end
}
