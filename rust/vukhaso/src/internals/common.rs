// Written by tools/plain_rust from crates/rb_common. Do not edit.

//! Types shared by text and glyphs: tags, scripts, directions, and the numbers of characters and glyphs.

pub mod direction;
pub mod glyph_id;
pub mod script;
pub mod tag;

pub use direction::Direction;
pub use glyph_id::{GlyphId, hb_codepoint_t};
pub use script::Script;
pub use tag::{Tag, TagExt};
