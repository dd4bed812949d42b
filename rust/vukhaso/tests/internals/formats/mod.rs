//! Tests of the lists of characters and of glyphs, as text and in JSON. The answers are HarfBuzz's.

mod characters;
mod font;
mod heads;
mod json;
