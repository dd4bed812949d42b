//! Numbers with one value, printed as a range.

use std::io::{self, Write};

/// Numbers that come one after the other, each with a value: those with one value are printed as a line.
pub struct Runs<'a> {
    name: &'a str,
    /// The first number and the last of those with the value.
    run: Option<(u32, u32, u32)>,
}

impl<'a> Runs<'a> {
    pub fn new(name: &'a str) -> Self {
        Runs { name, run: None }
    }

    /// Takes the next number.
    pub fn add(&mut self, out: &mut impl Write, number: u32, value: u32) -> io::Result<()> {
        let first = match self.run {
            Some((first, _, held)) if held == value => first,
            _ => {
                self.end(out)?;
                number
            }
        };
        self.run = Some((first, number, value));
        Ok(())
    }

    /// Prints the last of them.
    pub fn end(&mut self, out: &mut impl Write) -> io::Result<()> {
        let Some((first, last, value)) = self.run else {
            return Ok(());
        };
        writeln!(out, "{} {first:x} {last:x} {value:x}", self.name)
    }
}

/// Prints what the numbers before `end` have.
pub fn print_ranges<F: Fn(u32) -> u32>(
    out: &mut impl Write,
    name: &str,
    from: u32,
    end: u32,
    property: F,
) -> io::Result<()> {
    let mut runs = Runs::new(name);
    for number in from..end {
        runs.add(out, number, property(number))?;
    }
    runs.end(out)
}

/// What is printed of a code point that is no character.
const NO_CHARACTER: u32 = 0xFFFF;

/// Prints what the characters have.
pub fn print_property<F: Fn(char) -> u32>(
    out: &mut impl Write,
    name: &str,
    property: F,
) -> io::Result<()> {
    let mut runs = Runs::new(name);
    for code in 0..0x11_0000 {
        let value = match char::from_u32(code) {
            Some(c) => property(c),
            None => NO_CHARACTER,
        };
        runs.add(out, code, value)?;
    }
    runs.end(out)
}
