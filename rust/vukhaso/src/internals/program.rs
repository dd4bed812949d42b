//! The program `vukhaso_shape`.

use crate::jobs;
use std::process::ExitCode;

/// Does all that the program does, and gives the status to end with.
pub fn run_to_end() -> ExitCode {
    jobs::run_to_end()
}
