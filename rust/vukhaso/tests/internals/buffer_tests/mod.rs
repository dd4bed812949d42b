// Written by tools/plain_rust from crates/buffer_tests. Do not edit.

//! Probes of `shaping_buffer` and `rb_glyph`: what Rattle alone shows, by a proof. Values are tested by lines of the program, in
//! `rows/calls`, and in `tests/internals` of the package `rust/vukhaso`.

pub mod probes;
