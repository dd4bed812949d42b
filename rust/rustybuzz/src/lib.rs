#![doc = include_str!("../README.md")]
#![no_std]
#![forbid(unsafe_code)]
#![warn(missing_docs)]

extern crate alloc;

mod buffer;
mod face;
pub mod script;
mod text;

pub use buffer::{GlyphBuffer, ShapePlan, UnicodeBuffer, shape, shape_with_plan};
pub use face::Face;
pub use script::Script;
pub use text::{Feature, Language, Variation};
pub use ttf_parser;
pub use vukhaso::rustybuzz::{
    BufferClusterLevel, BufferFlags, Direction, GlyphInfo, GlyphPosition, SerializeFlags,
};
