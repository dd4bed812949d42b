// Written by tools/plain_rust from crates/unicode_tables. Do not edit.

//! The version of Unicode, as `tools/mirrors` writes it.

/// The version of Unicode that all tables are of: those that the kit has, and those that this repository's tools write.
pub const UNICODE_VERSION: (u8, u8, u8) = (18, 0, 0);
