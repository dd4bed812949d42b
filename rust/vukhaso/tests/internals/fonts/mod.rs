//! Tests of the crates that read fonts, over what they make public.

mod bytes;
mod characters;
mod color;
mod lookups;
mod outlines;
mod tables;
