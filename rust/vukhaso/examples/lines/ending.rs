//! How the program ends.

use crate::shaping_session::run::run_on;
use std::io::{Read, Write};

/// The exit status after a fault.
const FAULT: u8 = 3;

/// All that the program does: a run over its input and its output, whose fault is reported on standard error. It gives
/// the status to end with.
pub fn run_to_end<R: Read, W: Write, E: Write>(
    reader: &mut R,
    writer: &mut W,
    error: &mut E,
) -> u8 {
    match run_on(reader, writer) {
        Ok(status) => status,
        Err(fault) => {
            // If standard error fails too, there is no place left to report it.
            let _ = writeln!(error, "{}", fault.message());
            FAULT
        }
    }
}
