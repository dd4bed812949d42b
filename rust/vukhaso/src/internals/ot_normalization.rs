// Written by tools/plain_rust from crates/ot_normalization. Do not edit.

//! Normalization with a font (Unicode Standard Annex 15).

mod normalization;

pub use normalization::normalize;
