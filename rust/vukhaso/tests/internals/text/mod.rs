//! Tests of tags, languages, scripts, directions, features and the texts that they are read from.

mod comparing;
mod direction;
mod feature;
mod glyph_id;
mod language;
mod script;
mod tag;
mod tags;
mod text_parser;
mod wording;
