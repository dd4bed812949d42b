// Written by tools/plain_rust from crates/script_joining. Do not edit.

//! Arabic and Syriac: the features and stages of letters that join, marks that belong next to their letter, and marks that are
//! stretched over a word.

pub mod fallback;
pub mod features;
mod lookup_bytes;
pub mod marks;
pub mod masks;
mod measure;
mod presentation_rows;
pub mod stretching;
