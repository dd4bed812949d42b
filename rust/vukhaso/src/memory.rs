//! Memory that may run out: vectors and texts whose growth answers [`AllocError`] in place of ending the program.
//!
//! A [`Vec`] and a [`String`] of this module are std's own, of which only the growth differs. They are read as slices
//! and as `str`, and handed over to std's types with no copy.

mod map;
mod shared;
mod string;
mod vec;

pub use map::BTreeMap;
#[doc(hidden)]
pub use shared::Shared;
pub use string::{String, TryDisplay, TryText};
pub use vec::{TryIterator, Vec};

/// There is no memory for what was asked.
#[derive(Clone, Copy, Debug, PartialEq, Eq)]
pub struct AllocError;

impl core::fmt::Display for AllocError {
    fn fmt(&self, f: &mut core::fmt::Formatter<'_>) -> core::fmt::Result {
        f.write_str("out of memory")
    }
}

impl core::error::Error for AllocError {}

impl From<alloc::collections::TryReserveError> for AllocError {
    fn from(_: alloc::collections::TryReserveError) -> Self {
        AllocError
    }
}
