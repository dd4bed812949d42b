//! Tests of the crates of scripts: what rows of shaping
//! (`rows/shaping`) cannot say. What is expected comes from the Unicode Standard, the OpenType specification and HarfBuzz's tests.

mod features;
mod hangul;
mod hebrew;
mod joining;
mod shapers;
mod syllables;
mod texts;
