//! The tables of `unicode_tables`, through the calls of `rb_glyph` that ask them.

use crate::runs::{Runs, print_property};
use std::collections::BTreeSet;
use std::io::{self, Write};
use vukhaso::internals::glyph::row_search::value_of;
use vukhaso::internals::glyph::{
    CharExt, CombiningClasses, Compositions, Decompositions, compose, decompose,
};
use vukhaso::internals::unicode_tables::{combining_classes, compositions, decompositions};

/// Each character below it is the first of the pairs that are asked for, whether it composes or not.
const STARTERS: u32 = 0x400;

/// The syllables of Hangul, whose parts are compared by a property of their own.
const HANGUL: (u32, u32) = (0xAC00, 0xD7A3);

/// Prints the class and the parts of each character, the characters of the pairs that are asked for, and what they compose to.
pub fn print_tables(out: &mut impl Write) -> io::Result<()> {
    let classes = combining_classes()?;
    let rows = decompositions()?;
    let pairs = compositions()?;
    print_classes(out, &classes)?;
    if let Some(table) = Decompositions::new(&rows) {
        print_parts(out, &table)?;
        if let Some(composites) = Compositions::new(&pairs) {
            print_pairs(out, &classes, &table, &composites)?;
        }
    }
    Ok(())
}

fn print_classes(out: &mut impl Write, rows: &[(char, u8)]) -> io::Result<()> {
    let mut classes = Runs::new("combining_class");
    for code in 0..0x11_0000 {
        let class = match char::from_u32(code) {
            Some(c) => value_of(rows, c).map_or(0, |class| class as u32),
            None => 0xFFFF,
        };
        classes.add(out, code, class)?;
    }
    classes.end(out)?;
    match CombiningClasses::new(rows) {
        Some(classes) => print_modified(out, &classes),
        None => Ok(()),
    }
}

fn print_modified(out: &mut impl Write, classes: &CombiningClasses) -> io::Result<()> {
    print_property(out, "modified_class", |c| {
        c.modified_combining_class(classes) as u32
    })
}

fn print_parts(out: &mut impl Write, table: &Decompositions) -> io::Result<()> {
    print_property(out, "first_part", |c| {
        decompose(table, c).map_or(0, |parts| parts.0 as u32)
    })?;
    print_property(out, "second_part", |c| {
        decompose(table, c).map_or(0, |parts| parts.1 as u32)
    })
}

fn print_pairs(
    out: &mut impl Write,
    classes: &[(char, u8)],
    table: &Decompositions,
    composites: &Compositions,
) -> io::Result<()> {
    let firsts = asked_firsts(table);
    let seconds = asked_seconds(table, classes);
    print_asked(out, "asked_first", &firsts)?;
    print_asked(out, "asked_second", &seconds)?;
    print_composed(out, composites, &firsts, &seconds)
}

/// The parts of a character that is no syllable of Hangul.
fn parts_of(table: &Decompositions, code: u32) -> Option<(char, char)> {
    if HANGUL.0 <= code && code <= HANGUL.1 {
        return None;
    }
    decompose(table, char::from_u32(code)?)
}

/// The characters that are asked for as the first of a pair: those that some character decomposes to, and the starters.
fn asked_firsts(table: &Decompositions) -> BTreeSet<char> {
    let mut firsts = (0..STARTERS)
        .filter_map(char::from_u32)
        .collect::<BTreeSet<_>>();
    for code in 0..0x11_0000 {
        if let Some((first, _)) = parts_of(table, code) {
            firsts.insert(first);
        }
    }
    firsts
}

/// The characters that are asked for as the second of a pair: those that some character decomposes to, and those with a class.
fn asked_seconds(table: &Decompositions, classes: &[(char, u8)]) -> BTreeSet<char> {
    let mut seconds = BTreeSet::new();
    for code in 0..0x11_0000 {
        if let Some((_, second)) = parts_of(table, code) {
            seconds.insert(second);
        }
    }
    for row in classes {
        seconds.insert(row.0);
    }
    seconds
}

fn print_asked(out: &mut impl Write, name: &str, characters: &BTreeSet<char>) -> io::Result<()> {
    for c in characters {
        writeln!(out, "{name} {:x}", *c as u32)?;
    }
    Ok(())
}

/// What each pair of a first and a second composes to. A pair's number is counted through the seconds first.
fn print_composed(
    out: &mut impl Write,
    table: &Compositions,
    firsts: &BTreeSet<char>,
    seconds: &BTreeSet<char>,
) -> io::Result<()> {
    let mut runs = Runs::new("composed");
    let mut number: u32 = 0;
    for first in firsts {
        for second in seconds {
            let both = compose(table, *first, *second).map_or(0, |c| c as u32);
            runs.add(out, number, both)?;
            number = number.wrapping_add(1);
        }
    }
    runs.end(out)
}
