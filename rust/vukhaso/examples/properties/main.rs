//! Properties of characters, directions of scripts, Hangul, the tables of `unicode_tables`, and reversals, as lines:
//! `tools/harfbuzz/properties.hh` prints the same of HarfBuzz, and `tools/harfbuzz/beside properties` compares both.
//!
//! A property is printed as ranges of numbers with one value, in hexadecimal digits.

use std::env;
use std::io::{self, BufWriter, Write};

mod characters;
mod directions;
mod hangul;
mod reversals;
mod runs;
mod tables;

/// What is printed where no part is named.
const USAGE: &str = "\
properties PART ..: prints the parts, which are directions, characters, hangul, tables and reversals.";

/// Prints a part; nothing where there is none of this name.
fn print_part(out: &mut impl Write, part: &str) -> io::Result<()> {
    match part {
        "directions" => directions::print_directions(out),
        "characters" => characters::print_characters(out),
        "hangul" => hangul::print_hangul(out),
        "tables" => tables::print_tables(out),
        "reversals" => reversals::print_reversals(out),
        _ => Ok(()),
    }
}

fn main() -> io::Result<()> {
    let mut out = BufWriter::new(io::stdout().lock());
    let mut parts = env::args().skip(1).peekable();
    if parts.peek().is_none() {
        writeln!(out, "{USAGE}")?;
    }
    for part in parts {
        print_part(&mut out, &part)?;
    }
    out.flush()
}
