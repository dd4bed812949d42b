// Written by tools/plain_rust from crates/shaping_verification. Do not edit.

//! Why texts are not shaped.

use crate::memory::AllocError;
use crate::verification::verification::VerifyError;

/// Why a text was not shaped.
#[derive(Clone, Copy, PartialEq, Eq, Debug)]
#[non_exhaustive]
pub enum ShapeError {
    /// The text would have become longer than the buffer's limit.
    TooLong,
    /// There is no memory.
    Memory,
    /// The plan by which the text was to be shaped is for others: `ShapePlan::is_for` says no.
    OtherPlan,
    /// The buffer was to be verified, and a test of its glyphs failed.
    Unverified(VerifyError),
}

impl core::fmt::Display for ShapeError {
    fn fmt(&self, f: &mut core::fmt::Formatter<'_>) -> core::fmt::Result {
        match self {
            Self::TooLong => write!(f, "the text is too long"),
            Self::Memory => write!(f, "out of memory"),
            Self::OtherPlan => write!(f, "the plan is for other texts"),
            Self::Unverified(n0) => write!(f, "buffer verify error: {n0}"),
        }
    }
}

impl core::error::Error for ShapeError {}

///
/// # Proved
///
/// ```text
/// ghost from_gives = { λ _ e. e ≡ Memory }
/// ```
impl From<AllocError> for ShapeError {
    fn from(_error: AllocError) -> ShapeError {
        ShapeError::Memory
    }
}
