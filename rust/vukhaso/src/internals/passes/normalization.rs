// Written by tools/plain_rust from crates/shaping_passes. Do not edit.

//! HarfBuzz's steps of normalization, on a buffer of characters: each is taken apart, marks are put in order, and
//! pairs are composed. An id that is no character stays as it is.

pub use composition::{compose_marks, next_turn};
pub use decomposition::{Parts, add_font_parts, decompose_all};
pub use ordering::{MOST_MARKS, order_marks, order_run, run_end};
pub use rules::{CharacterPairs, FontCharacters, MarkClasses};

mod composition;
mod decomposition;
mod ordering;
mod parts;
mod rules;
