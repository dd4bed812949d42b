//! Directions of scripts, by the numbers that HarfBuzz gives them.

use std::io::{self, Write};
use vukhaso::internals::common::script::constant_tags;
use vukhaso::internals::common::{Direction, Script, Tag};

/// Prints the direction of each script that has a constant.
pub fn print_directions(out: &mut impl Write) -> io::Result<()> {
    for tag in constant_tags() {
        writeln!(out, "direction {:x} {:x}", tag.0, direction_number(*tag))?;
    }
    Ok(())
}

fn direction_number(tag: Tag) -> u32 {
    let Some(script) = Script::from_iso15924_tag(tag) else {
        return 0;
    };
    match Direction::from_script(script) {
        Some(Direction::LeftToRight) => 4,
        Some(Direction::RightToLeft) => 5,
        _ => 0,
    }
}
