// Written by tools/plain_rust from crates/script_joining. Do not edit.

//! How letters join their neighbours (the Unicode Standard, section 9.2, and for Syriac section 9.3).

pub(crate) mod flags;
pub mod form;
pub(crate) mod forms;
pub mod kind;
mod rows;
