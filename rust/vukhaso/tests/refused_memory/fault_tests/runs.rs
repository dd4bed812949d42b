// Written by tools/plain_rust from crates/fault_tests. Do not edit.

//! The lists of calls that are watched.

pub mod in_place;
pub mod separate;
pub mod whole;
pub mod within_room;
