//! Tests of what `internals` makes public: of each call, its answers.
#![allow(clippy::type_complexity, reason = "rows of a table are tuples")]

type Fail = Box<dyn std::error::Error>;

mod aat;
mod buffer;
mod fonts;
mod formats;
mod glyphs;
mod layout;
#[cfg(feature = "std")]
mod lines;
#[cfg(feature = "std")]
mod options;
mod passes;
mod positions;
mod scripts;
mod shapers;
mod text;
mod unicode;
mod variations;

// Written by `tools/plain_rust` from Rattle sources: probes of the buffer, and callers of it.
#[allow(
    dead_code,
    unused_variables,
    reason = "of some of them only a part is tested here"
)]
mod buffer_tests;
#[allow(
    dead_code,
    unused_variables,
    reason = "of some of them only a part is tested here"
)]
mod shaping_uses;
