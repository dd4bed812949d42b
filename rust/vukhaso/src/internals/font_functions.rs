// Written by tools/plain_rust from crates/font_functions. Do not edit.

//! What shaping asks of a font: the glyphs of characters, and their measures. A caller may answer in place of the font's tables.

mod functions;
mod own_functions;

pub use functions::FontFunctions;
pub use own_functions::OwnFunctions;
