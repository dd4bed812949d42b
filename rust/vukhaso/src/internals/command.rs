// Written by tools/plain_rust from crates/shape_command. Do not edit.

//! The program `vukhaso_shape`, used as HarfBuzz's `hb-shape` is: its lines are shaped by the OpenType shaper.

pub mod ending;
pub mod opentype;
