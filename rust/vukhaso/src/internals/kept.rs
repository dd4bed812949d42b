// Written by tools/plain_rust from crates/shape_kept. Do not edit.

//! What `vukhaso_shape` keeps: a font for all command lines in a row that name it, a buffer from line to line, and the steps of shaping
//! a line.

pub mod kept_line;
pub mod loaded_font;
pub mod trace;
