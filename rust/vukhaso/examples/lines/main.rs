//! Commands on a shaping buffer, one a line, and their answers: the program `shaping_cli`, over its erased library.
//!
//! ```sh
//! printf '%s\n' 'push abcd' 'merge_clusters 1 3' 'serialize 20' | cargo run --example lines
//! ```

use std::io::{stderr, stdin, stdout};
use std::process::ExitCode;

mod ending;
#[allow(clippy::needless_question_mark, dead_code, unused_variables)] // written code
mod shaping_session;

fn main() -> ExitCode {
    let (input, output, error) = (stdin(), stdout(), stderr());
    ExitCode::from(ending::run_to_end(
        &mut input.lock(),
        &mut output.lock(),
        &mut error.lock(),
    ))
}
