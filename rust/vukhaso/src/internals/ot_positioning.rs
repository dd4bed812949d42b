// Written by tools/plain_rust from crates/ot_positioning. Do not edit.

//! The glyphs of a text, positioned by its plan: advances, the lookups of `GPOS` or the table `kern`, and marks that a font does not
//! position itself.

mod fallback_marks;
mod lookups;
mod mark_placing;
mod mark_stack;
mod positioning;

pub use fallback_marks::position_marks;
pub use positioning::position;
