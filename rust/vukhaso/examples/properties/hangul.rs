//! Syllables of Hangul and their parts. Of a syllable its parts are taken away, so that the ranges are long.

use crate::runs::print_ranges;
use std::io::{self, Write};
use vukhaso::internals::glyph::{compose_hangul, decompose_hangul};

/// Prints the parts of each syllable, and what pairs of characters beside those of Hangul compose to.
pub fn print_hangul(out: &mut impl Write) -> io::Result<()> {
    print_ranges(out, "first_of", 0xABFF, 0xD7B0, first_of)?;
    print_ranges(out, "second_of", 0xABFF, 0xD7B0, second_of)?;
    print_ranges(out, "leading", 0, 21 * 23, leading)?;
    print_ranges(out, "trailing", 0, 11174 * 30, trailing)
}

fn decomposed(s: u32) -> Option<(char, char)> {
    decompose_hangul(char::from_u32(s)?)
}

fn first_of(s: u32) -> u32 {
    decomposed(s).map_or(0, |parts| parts.0 as u32)
}

fn second_of(s: u32) -> u32 {
    match decomposed(s) {
        Some((_, second)) => (second as u32).wrapping_sub(s),
        None => 0,
    }
}

/// What a pair composes to.
fn syllable(a: u32, b: u32) -> Option<char> {
    compose_hangul(char::from_u32(a)?, char::from_u32(b)?)
}

fn composed(a: u32, b: u32) -> u32 {
    match syllable(a, b) {
        Some(both) => (both as u32).wrapping_sub(a).wrapping_sub(b),
        None => 0,
    }
}

fn leading(i: u32) -> u32 {
    composed(0x10FF + i / 23, 0x1160 + i % 23)
}

fn trailing(i: u32) -> u32 {
    composed(0xABFF + i / 30, 0x11A6 + i % 30)
}
