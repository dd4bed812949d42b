// Written by tools/plain_rust from crates/ot_plan. Do not edit.

//! How the lookups of a plan are applied, and what they may cost.

use crate::buffer::hb_buffer_t;
use crate::ot_layout::{Budget, LookupOptions};
use crate::ot_map::PlannedLookup;

/// How a lookup of the plan is applied.
///
/// # Proved
///
/// ```text
/// ensures { result ≡ record {
///       mask = planned.now.mask;
///       auto_zwnj = planned.now.auto_zwnj;
///       auto_zwj = planned.now.auto_zwj;
///       per_syllable = planned.now.per_syllable;
///       random = planned.now.random;
///     } }
/// ```
#[inline]
pub fn options_of(planned: &PlannedLookup) -> LookupOptions {
    LookupOptions {
        mask: planned.mask,
        auto_zwnj: planned.auto_zwnj,
        auto_zwj: planned.auto_zwj,
        per_syllable: planned.per_syllable,
        random: planned.random,
    }
}

/// What the lookups of a text may cost.
///
/// # Proved
///
/// ```text
/// ensures steps { result.steps ≡ steps_for (len buffer.now) }
/// ensures nested { pos 0 ≤ℤ buffer.now.max_ops → pos result.nested ≡ buffer.now.max_ops }
/// ```
#[inline]
pub fn budget_of(buffer: &hb_buffer_t) -> Budget {
    let most = u32::try_from(buffer.max_ops).unwrap_or(0);
    Budget::new(most, buffer.len())
}
