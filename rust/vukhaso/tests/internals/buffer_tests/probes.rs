// Written by tools/plain_rust from crates/buffer_tests. Do not edit.

//! Probes of the contracts: each function here asks one clause of an accessor, of a reference or of a trait, and is no
//! example of how to use a buffer.

pub mod accessors;
pub mod counters;
pub mod references;
pub mod traits;
