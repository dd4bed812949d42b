// Written by tools/plain_rust from crates/aat_substitution. Do not edit.

//! What is carried from subtable to subtable while a text is shaped.

use crate::glyph::hb_glyph_info_t;
use crate::glyph_digests::Digest;
use crate::memory::AllocError;
use crate::ot_layout::Budget;

/// Whether all was done: `Ok(false)` where the buffer refused a call for length, `Err(AllocError)` where memory ran out.
pub(crate) type Done = Result<bool, AllocError>;

/// In texts of so many glyphs and more it is not asked which glyphs there are (HarfBuzz, `HB_AAT_BUFFER_DIGEST_THRESHOLD`).
const DIGEST_THRESHOLD: usize = 32;

/// What is left to spend, and which glyphs the text may have.
#[derive(Clone, Copy, Debug)]
pub(crate) struct Work {
    /// What is left to spend.
    pub budget: Budget,
    /// The digest of the glyphs that the text may have.
    pub digest: Digest,
}

impl Work {
    /// The work on a text of these glyphs, for which so many operations may be made: a state table may stay
    /// at a glyph so often, and so many glyphs may be put in.
    pub(crate) fn new(max_ops: i32, glyphs: &[hb_glyph_info_t]) -> Self {
        let nested = u32::try_from(max_ops).unwrap_or(0);
        let mut budget = Budget::new(nested, glyphs.len());
        budget.steps = budget.steps.saturating_add(u64::from(nested) * 8);
        Work {
            budget,
            digest: if glyphs.len() < DIGEST_THRESHOLD {
                Digest::of_glyphs(glyphs)
            } else {
                Digest::full()
            },
        }
    }

    /// Pays for glyphs that are put in, as HarfBuzz counts them in `max_ops`. The answer is false where
    /// nothing is left then.
    pub(crate) fn insert(&mut self, count: u16) -> bool {
        self.budget.nested = self.budget.nested.saturating_sub(u32::from(count));
        self.budget.nested > 0
    }
}
