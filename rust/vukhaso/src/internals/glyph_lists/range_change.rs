// Written by tools/plain_rust from crates/glyph_lists. Do not edit.

//! What a call makes of the glyph flags of a range of both sides: bits for all its glyphs, or a scan.

use crate::glyph::hb_glyph_info_t;
use crate::glyph_lists::cluster_order::ClusterOrder;
use crate::glyph_lists::glyph_flags::{mark_range, scan_parts};

/// A change of the glyph flags of a range.
#[derive(Clone, Copy, Debug)]
pub enum RangeChange {
    /// Each glyph gets the bits.
    Mark { bits: u32 },
    /// Those outside the least cluster get the bits, what lies on either side being a part of its own.
    Scan { bits: u32, order: ClusterOrder },
}

/// Changes the glyphs from `start` to `end` of the two sides as one list, `out` first, where `end` is
/// not within `out`.
///
/// # Requires
///
/// - `past_out: length out.old ≤ end`
/// - `range: start ≤ end`
/// - `within: end ≤ length out.old + length input.old`
///
/// # Proved
///
/// ```text
/// ensures out { out.new ≡ take (length out.old)
///     (changed change (length out.old) (out.old ++ input.old) start end) }
/// ensures input { input.new ≡ drop (length out.old)
///     (changed change (length out.old) (out.old ++ input.old) start end) }
/// ```
#[inline(always)]
pub fn change(
    out: &mut [hb_glyph_info_t],
    input: &mut [hb_glyph_info_t],
    start: usize,
    end: usize,
    change: RangeChange,
) {
    debug_assert!(out.len() <= end);
    debug_assert!(start <= end);
    debug_assert!(end <= out.len() + input.len());
    match change {
        RangeChange::Mark { bits } => mark_range(out, input, start, end, bits),
        RangeChange::Scan { bits, order } => {
            let len = out.len();
            let seam = start.min(len);
            let from = start.saturating_sub(len);
            let to = end - len;
            scan_parts(&mut out[seam..len], &mut input[from..to], bits, order);
        }
    }
}
