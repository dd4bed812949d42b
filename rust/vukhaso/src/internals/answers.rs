// Written by tools/plain_rust from crates/shape_answers. Do not edit.

//! What the lines of the program `vukhaso_shape` are answered with, whatever shapes their texts, and how the program ends.

mod batch_answers;
mod drawing;
pub mod ending;
pub mod lines;
pub mod run;
pub mod shaper;
pub mod texts;
