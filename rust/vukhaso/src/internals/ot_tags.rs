// Written by tools/plain_rust from crates/ot_tags. Do not edit.

//! The OpenType tags of languages: facts of OpenType's registry "Language System Tags" and of ISO 639.

mod language_rows;
mod registry;
mod subtag_rules;
mod subtags;
mod tags_of_language;

pub use tags_of_language::LanguageTags;
