// Written by tools/plain_rust from crates/shaping_uses. Do not edit.

//! Callers of the shaping buffer, as a user would write them, each with the contract that a user would want.

pub mod comparing;
pub mod deletion;
pub mod groups;
pub mod in_place;
pub mod ligature;
pub mod merging;
pub mod printing;
pub mod rendering;
pub mod room;
pub mod runs;
