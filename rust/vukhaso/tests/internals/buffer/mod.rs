//! Tests of the buffer, of lists of calls on it, and of their uses. Most calls are tested by lines of the program, in `tests/rows`; here is
//! what these do not say.

mod accessors;
mod call_list;
mod glyph_buffer;
mod groups;
mod levels;
mod limits;
mod lists;
mod long_texts;
mod masks;
mod rendering;
mod unicode_buffer;
mod use_steps;
mod uses;
mod write_steps;
mod writes;
