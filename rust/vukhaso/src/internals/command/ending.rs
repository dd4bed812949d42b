// Written by tools/plain_rust from crates/shape_command. Do not edit.

//! How the program ends.

use crate::answers::ending::run_with;
use crate::command::opentype::OpenTypeShaper;
use crate::host::{AllocGlobal, Env, Eprint, Files, Input, Print};
use std::process::ExitCode;

/// All that the program does. It gives the status to end with: 0, or 1 where something failed, which is
/// said on standard error.
///
/// # Proved
///
/// ```text
/// ensures { exit_status result ≤ 1 }
/// ```
#[inline]
pub fn run_to_end<F: Files + AllocGlobal + Env + Input + Print + Eprint>(rt: &F) -> ExitCode {
    run_with(rt, &OpenTypeShaper::new())
}
