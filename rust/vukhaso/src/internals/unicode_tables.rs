// Written by tools/plain_rust from crates/unicode_tables. Do not edit.

//! Tables of the Unicode Character Database as `rb_glyph` takes them: compositions, decompositions, combining classes.
//!
//! Each function makes the rows of one table from the data of the kit's crate `ucd_normal`. All tables, those of other crates too, are
//! of one version of Unicode, [`UNICODE_VERSION`].
//! Its rows rise, so the table's `new` takes them, and what the table then answers is that crate's own word.
mod canonical;
mod mapping;
mod mirror_rows;
mod mirroring;
mod rows;
mod unicode_rows;
mod version;

pub use canonical::{compose, decompose};
pub use mirroring::mirrors;
pub use rows::{combining_classes, compositions, decompositions};
pub use unicode_rows::UnicodeRows;
pub use version::UNICODE_VERSION;
