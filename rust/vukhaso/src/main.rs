//! Shapes the lines of a text with a font, and prints their glyphs as HarfBuzz's hb-shape does.

use std::process::ExitCode;

fn main() -> ExitCode {
    vukhaso::internals::program::run_to_end()
}
