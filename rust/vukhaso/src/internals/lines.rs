// Written by tools/plain_rust from crates/shape_lines. Do not edit.

//! Lines of the program `vukhaso_shape`: how they are read and become texts, and how glyphs are printed.

pub mod answers;
pub mod batch;
pub mod characters;
pub mod errors;
pub(crate) mod fonts;
pub mod printing;
pub mod reading;
pub mod text;
