//! Tests of the crates of lookups, over what they make public.

mod languages;
mod plan;
