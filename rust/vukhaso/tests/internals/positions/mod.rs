//! Tests of positions by the tables `GPOS` and `kern`, and of what those tables hold.

mod anchors;
mod bytes;
mod kern_tables;
mod lookups;
mod tables;
