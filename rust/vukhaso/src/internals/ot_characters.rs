// Written by tools/plain_rust from crates/ot_characters. Do not edit.

//! The characters of a text, before they are mapped to glyphs: their properties, graphemes, direction and mirror images.

mod dotted_circle;
mod glyph_info;
mod native_direction;
mod numbers;
mod rotation;
mod text;
mod turned_contexts;

pub use dotted_circle::insert_dotted_circle;
pub use glyph_info::is_decimal_number;
pub use numbers::keep_numbers;
pub use rotation::rotate_characters;
pub use text::{
    ensure_native_direction, form_clusters, keep_contexts, set_direction, set_properties,
};
