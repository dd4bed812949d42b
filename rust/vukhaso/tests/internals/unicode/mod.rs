//! Tests of the tables of Unicode.

mod rows;
