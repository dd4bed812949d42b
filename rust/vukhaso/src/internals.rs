// Written by tools/plain_rust from its table of crates. Do not edit.
//! The modules of the proved crates, which the package's own tests, and packages beside it, reach. They are no part of its interface.

pub mod aat_substitution;
pub mod aat_tables;
pub mod arrayvec;
pub mod bitflags;
pub mod buffer;
pub mod common;
pub mod font_cmap;
pub mod font_colors;
pub mod font_face;
pub mod font_functions;
pub mod font_gvar;
pub mod font_outlines;
pub mod font_tables;
pub mod font_variations;
pub mod glyph;
pub mod glyph_digests;
pub mod glyph_lists;
pub mod glyph_sides;
pub mod glyph_text;
pub mod line_formats;
pub mod numbers;
pub mod ot_apply;
pub mod ot_attachments;
pub mod ot_characters;
pub mod ot_contexts;
pub mod ot_gpos;
pub mod ot_gpos_tables;
pub mod ot_gsub;
pub mod ot_kern;
pub mod ot_layout;
pub mod ot_lookups;
pub mod ot_map;
pub mod ot_normalization;
pub mod ot_plan;
pub mod ot_positioning;
pub mod ot_positions;
pub mod ot_shape;
pub mod ot_substitution;
pub mod ot_tags;
pub mod outline_tables;
pub mod passes;
pub mod runs;
pub mod script_indic;
pub mod script_items;
pub mod script_joining;
pub mod script_letters;
pub mod script_shapers;
pub mod script_syllables;
pub mod script_universal;
pub mod steps;
pub mod text;
pub mod unicode_tables;
pub mod universal_categories;
pub mod verification;

#[cfg(feature = "std")]
pub mod glyphs;

#[cfg(feature = "std")]
pub mod options;

#[cfg(feature = "std")]
pub(crate) mod fonts;

#[cfg(feature = "std")]
pub mod lines;

#[cfg(feature = "std")]
pub(crate) mod kept;

#[cfg(feature = "std")]
pub(crate) mod answers;

#[cfg(feature = "std")]
pub(crate) mod command;
#[cfg(feature = "std")]
pub mod program;
