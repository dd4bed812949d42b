//! Tests of the readers of Apple's tables, and of what is done by them. What is expected follows from Apple's TrueType Reference Manual,
//! and is what HarfBuzz makes of such tables.

mod features;
mod substitution;
mod tables;
