//! Tests of `font_tables`, over small tables. Those of coverage and classes are the examples of the OpenType specification.

mod directory;
mod header;
mod layout;
mod metrics;
mod names;
mod numbers;
