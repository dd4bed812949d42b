// Written by tools/plain_rust from crates/shaping_session. Do not edit.

//! A session that edits a shaping buffer: one command a line, one answer a line, from a reader to a writer.

mod command;
mod query;
mod reply;
pub mod run;
mod session;
mod state_text;
mod words;
