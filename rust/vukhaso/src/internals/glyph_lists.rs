// Written by tools/plain_rust from crates/glyph_lists. Do not edit.

//! Lists of glyphs, as a shaping buffer holds them on its two sides: definitions of clusters, merges, scans, deletion,
//! masks, contexts and guessing, and the functions over slices that compute them.
//!
//! Nothing here knows of a cursor's calls or of refusals: those are the business of `shaping_buffer`, which users name.

pub mod cluster_numbers;
pub mod cluster_order;
pub mod cluster_reads;
pub mod clusters;
pub mod context;
pub mod deletion;
pub mod deletion_in_place;
pub mod glyph_flags;
pub mod groups;
pub mod guess;
pub mod masks;
pub mod merge_range;
pub mod merged_head;
pub mod merging;
pub mod range_change;
pub mod reversal;
