//! HarfBuzz's C interface on Vukhaso: the calls of `hb.h`, `hb-ot.h` and `hb-ft.h`, with the names, the types and the binary interface
//! of HarfBuzz 10.2.
//!
//! This layer is plain Rust, and not proved: it turns what C passes into what the proved shaper takes, and back. Each `unsafe` has the
//! reason why it is sound. All of them lean on HarfBuzz's own terms: an object that is passed is alive, an address has as many items
//! behind it as the count says, and an object is not changed by one thread while another uses it.
//!
//! What is not here is a symbol that is not there. The README has a table of what stands, and says where an answer differs.
#![allow(non_camel_case_types)] // the names are HarfBuzz's
#![allow(clippy::missing_safety_doc)] // HarfBuzz's documentation has the terms of each call
#![allow(clippy::too_many_arguments)] // as the header has them

mod aat;
mod blob;
mod buffer;
mod common;
mod draw;
mod edits;
mod face;
mod font;
mod ft;
mod graphite2;
mod map;
mod object;
mod ot;
mod outline;
mod set;
mod sfnt;
mod shape;
mod style;
mod types;
mod unicode;
