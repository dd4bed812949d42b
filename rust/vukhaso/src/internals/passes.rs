// Written by tools/plain_rust from crates/shaping_passes. Do not edit.

//! Passes of a shaper over the shaping buffer, each with a contract that gives its exact result.

pub use lines::line_ends;
pub use normalization::{MarkClasses, compose_marks, decompose_all, order_marks};
pub use visible::hide_default_ignorables;

pub mod lines;
pub mod normalization;
pub mod visible;
