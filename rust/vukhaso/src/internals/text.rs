// Written by tools/plain_rust from crates/rb_text. Do not edit.

//! Tags, scripts, directions, languages and font features: what a text shaper is given beside the text.

pub mod feature;
pub mod language;
mod language_cut;
pub mod language_table;
pub mod tags;
pub mod text_parser;

pub use crate::common::{
    Direction, GlyphId, Script, Tag, TagExt, direction, glyph_id, hb_codepoint_t, script, tag,
};
pub use feature::{Feature, HB_FEATURE_GLOBAL_END, HB_FEATURE_GLOBAL_START};
pub use language::{Language, LanguageError};
pub use language_table::LanguageTable;
pub use tags::{
    ComplexLanguages, NoComplexLanguages, SmallVecExt, ThreeTags, tags_from_script_and_language,
};
pub use text_parser::TextParser;
