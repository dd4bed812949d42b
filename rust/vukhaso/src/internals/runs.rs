// Written by tools/plain_rust from crates/shaping_runs. Do not edit.

//! Lists of calls on a shaping buffer, made in order, with an answer to each.

pub use call::{Answer, Call};
pub use call_list::{Stopped, make_call, replay};
pub use rendering::{MAX_FEATURES, RenderFault, render, render_at};

pub mod call;
mod call_list;
mod rendering;
