// Written by tools/plain_rust from crates/script_letters. Do not edit.

//! The shapers of scripts that are no family, of which each writes a text anew before its lookups: Hangul syllables, the presentation
//! forms of Hebrew, and the vowel AM of Thai and Lao.

pub mod hangul;
pub mod hebrew;
pub mod thai;
