// Written by tools/plain_rust from crates/shaping_steps. Do not edit.

//! The steps of shaping a text, and who is told of them.

mod watch;

pub use watch::{Step, Unwatched, Watch};
