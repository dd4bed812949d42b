// Written by tools/plain_rust from its table of crates. Do not edit.
#![doc = include_str!("../README.md")]
#![no_std]
#![forbid(unsafe_code)]
#![warn(missing_docs)]
#![allow(non_camel_case_types)] // the names are those of HarfBuzz and rustybuzz

#[cfg(not(any(feature = "std", feature = "alloc")))]
compile_error!("vukhaso needs the feature `std` or `alloc`");

extern crate alloc;
#[cfg(any(test, feature = "std"))]
extern crate std;

#[allow(
    clippy::approx_constant,
    clippy::assign_op_pattern,
    clippy::collapsible_if,
    clippy::collapsible_match,
    clippy::explicit_auto_deref,
    clippy::if_same_then_else,
    clippy::len_without_is_empty,
    clippy::manual_div_ceil,
    clippy::manual_find,
    clippy::manual_map,
    clippy::manual_ok_err,
    clippy::manual_range_contains,
    clippy::manual_range_patterns,
    clippy::match_like_matches_macro,
    clippy::mem_replace_with_default,
    clippy::module_inception,
    clippy::needless_lifetimes,
    clippy::needless_question_mark,
    clippy::needless_range_loop,
    clippy::neg_cmp_op_on_partial_ord,
    clippy::new_without_default,
    clippy::nonminimal_bool,
    clippy::precedence,
    clippy::question_mark,
    clippy::redundant_closure,
    clippy::should_implement_trait,
    clippy::single_match,
    clippy::type_complexity,
    clippy::wrong_self_convention,
    reason = "written in the forms that a prover reads best"
)]
#[doc(hidden)]
pub mod internals;
pub mod memory;
pub mod rustybuzz;

mod facade;
mod font;
mod itoa;
mod ucd_normal;
mod unicode;

#[cfg(feature = "std")]
mod clap;
#[cfg(feature = "std")]
mod host;
#[cfg(feature = "std")]
mod jobs;

#[cfg(feature = "std")]
use internals::answers;
#[cfg(feature = "std")]
use internals::command;
#[cfg(feature = "std")]
use internals::fonts;
#[cfg(feature = "std")]
use internals::glyphs;
#[cfg(feature = "std")]
use internals::kept;
#[cfg(feature = "std")]
use internals::lines;
#[cfg(feature = "std")]
use internals::options;
use internals::{
    aat_substitution, aat_tables, arrayvec, bitflags, buffer, common, font_cmap, font_colors,
    font_face, font_functions, font_gvar, font_outlines, font_tables, font_variations, glyph,
    glyph_digests, glyph_lists, glyph_sides, glyph_text, line_formats, numbers, ot_apply,
    ot_attachments, ot_characters, ot_contexts, ot_gpos, ot_gpos_tables, ot_gsub, ot_kern,
    ot_layout, ot_lookups, ot_map, ot_normalization, ot_plan, ot_positioning, ot_positions,
    ot_shape, ot_substitution, ot_tags, outline_tables, runs, script_indic, script_items,
    script_joining, script_letters, script_shapers, script_syllables, script_universal, steps,
    text, universal_categories, verification,
};

pub use facade::*;
pub use internals::{passes, unicode_tables};
