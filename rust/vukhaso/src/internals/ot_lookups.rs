// Written by tools/plain_rust from crates/ot_lookups. Do not edit.

//! The lookups of `GSUB` and `GPOS`, read once (OpenType specification, "OpenType Layout Common Table Formats", "Lookup List table").

mod known;
pub mod lookup_list;
pub mod lookup_props;
mod lookup_reader;
mod reading;
mod seconds;
pub mod sets;
pub mod subtable;
pub mod subtable_kind;
pub mod subtable_limit;

pub use lookup_list::{Lookup, LookupList};
pub use lookup_props::LookupProps;
pub use subtable::Subtable;
pub use subtable_kind::{ContextFormat, PairFormat, SingleFormat, SubtableKind};
