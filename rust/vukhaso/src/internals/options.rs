// Written by tools/plain_rust from crates/shape_options. Do not edit.

//! The command line of `vukhaso_shape`: its words, its options, and the lists that their values hold.

pub(crate) mod arguments;
pub mod batch;
pub mod code_points;
pub mod features;
mod option_table;
pub mod options;
pub mod output;
mod sizes;
pub mod synthetic;
mod values;
pub mod variations;
pub mod words;
