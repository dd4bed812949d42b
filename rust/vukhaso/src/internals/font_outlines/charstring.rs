// Written by tools/plain_rust from crates/font_outlines. Do not edit.

//! The path of a glyph that a charstring draws (The Type 2 Charstring Format).

use crate::font_outlines::curves::{draw_by, flex, flex_1, horizontal_flex, horizontal_flex_1};
use crate::font_outlines::path::{Path, Point};
use crate::font_tables::bytes::{tail, u8_at, u32_at};
use crate::numbers::ToSigned;
use crate::outline_tables::operand::{number, number_length};
use crate::outline_tables::subroutines::subroutine;

/// How many numbers an operator may have before it, as HarfBuzz allows.
const MOST_NUMBERS: usize = 513;

/// How deep subroutines may call one another, as HarfBuzz allows.
pub(crate) const DEEPEST_CALL: u32 = 10;

/// How many numbers and operators a charstring may have, those of its subroutines too, as HarfBuzz allows.
pub(crate) const MOST_STEPS: u32 = 199_999;

/// The subroutines that a charstring may call, as two INDEXes.
#[derive(Clone, Copy, Debug)]
pub(crate) struct Subroutines<'a> {
    /// Those of the glyph's own Private DICT.
    pub local: &'a [u8],
    /// Those of the whole font.
    pub global: &'a [u8],
}

/// What a charstring draws.
#[derive(Clone, Copy, Debug)]
pub(crate) struct Drawing {
    /// Its path.
    pub path: Path,
    /// The accented character that it puts together.
    pub accented: Option<Accented>,
}

/// A character of two glyphs (The Type 2 Charstring Format, Appendix C, "endchar").
#[derive(Clone, Copy, Debug)]
pub(crate) struct Accented {
    /// How far the accent's origin lies from the base's.
    pub accent_at: Point,
    /// The base, by its code in the standard encoding.
    pub base: i32,
    /// The accent, by its code in the standard encoding.
    pub accent: i32,
}

/// What a charstring draws; `None` where it is broken, or takes more steps than are allowed.
pub(crate) fn draw_charstring(charstring: &[u8], subroutines: Subroutines<'_>) -> Option<Drawing> {
    let mut state = State::new();
    let mut steps = MOST_STEPS;
    if run(
        &mut state,
        subroutines,
        charstring,
        DEEPEST_CALL,
        &mut steps,
    )? {
        Some(Drawing {
            path: state.path,
            accented: state.accented(),
        })
    } else {
        None
    }
}

/// Runs a charstring or a subroutine up to its end, and says whether the glyph ends there: a subroutine
/// may also return.
fn run(
    state: &mut State,
    subroutines: Subroutines<'_>,
    code: &[u8],
    depth: u32,
    steps: &mut u32,
) -> Option<bool> {
    let mut rest = code;
    while *steps > 0 {
        *steps -= 1;
        let operator = u8_at(rest, 0)?;
        match operator {
            RETURN => return Some(false),
            ENDCHAR => return Some(true),
            CALLSUBR | CALLGSUBR => {
                let number = state.pop()? / UNIT;
                let callable = if operator == CALLSUBR {
                    subroutines.local
                } else {
                    subroutines.global
                };
                let called = subroutine(callable, number)?;
                if depth == 0 {
                    return None;
                }
                if run(state, subroutines, called, depth - 1, steps)? {
                    return Some(true);
                }
                rest = tail(rest, 1);
            }
            _ => rest = state.step(operator, rest)?,
        }
    }
    None
}

/// A font unit.
pub(crate) const UNIT: i32 = 65536;

const CALLSUBR: u8 = 10;

const RETURN: u8 = 11;

const ESCAPE: u8 = 12;

const ENDCHAR: u8 = 14;

const CALLGSUBR: u8 = 29;

/// What a charstring leaves from one operator to the next.
#[derive(Debug)]
pub(crate) struct State {
    /// The numbers that no operator took yet, in 65,536ths of a font unit.
    numbers: [i32; MOST_NUMBERS],
    /// How many of them there are.
    count: usize,
    /// The path so far.
    path: Path,
    /// How many stem hints there are.
    stems: u32,
    /// How many bytes a mask of the hints has, from the first mask on.
    mask_size: Option<usize>,
}

impl State {
    /// No numbers and no path.
    pub(crate) fn new() -> State {
        State {
            numbers: [0; MOST_NUMBERS],
            count: 0,
            path: Path::EMPTY,
            stems: 0,
            mask_size: None,
        }
    }

    /// The path so far.
    pub(crate) fn path(&self) -> Path {
        self.path
    }

    /// The numbers that no operator took yet.
    pub(crate) fn numbers(&self) -> &[i32] {
        &self.numbers[..self.count]
    }

    /// Adds to the number at a place, if there is one.
    pub(crate) fn add(&mut self, place: usize, by: i32) {
        if place < self.count {
            self.numbers[place] = self.numbers[place].saturating_add(by);
        }
    }

    /// Drops so many of the last numbers; `None` where there are fewer.
    pub(crate) fn drop_last(&mut self, count: usize) -> Option<()> {
        self.count = self.count.checked_sub(count)?;
        Some(())
    }

    /// Takes a number; `None` where there are too many.
    fn push(&mut self, number: i32) -> Option<()> {
        if self.count < MOST_NUMBERS {
            self.numbers[self.count] = number;
            self.count += 1;
            Some(())
        } else {
            None
        }
    }

    /// Gives the last number back.
    pub(crate) fn pop(&mut self) -> Option<i32> {
        if self.count == 0 {
            None
        } else {
            self.count -= 1;
            Some(self.numbers[self.count])
        }
    }

    /// A number, or an operator that neither calls nor ends: gives what follows it.
    #[inline(always)]
    pub(crate) fn step<'a>(&mut self, operator: u8, code: &'a [u8]) -> Option<&'a [u8]> {
        match operator {
            28 | 32..=254 => {
                self.push(i32::from(number(code)?) * UNIT)?;
                Some(tail(code, number_length(operator)))
            }
            255 => {
                if let Some(number) = u32_at(code, 1) {
                    self.push(number.to_signed())?;
                    Some(tail(code, 5))
                } else {
                    Some(tail(code, 1))
                }
            }
            _ => self.obey(operator, code),
        }
    }

    /// An operator that neither calls nor ends: gives what follows it.
    fn obey<'a>(&mut self, operator: u8, code: &'a [u8]) -> Option<&'a [u8]> {
        match operator {
            1 | 3 | 18 | 23 => {
                self.count_stems();
                self.count = 0;
                Some(tail(code, 1))
            }
            19 | 20 => Some(self.behind_mask(tail(code, 1))),
            ESCAPE => {
                self.flex(u8_at(code, 1)?)?;
                self.count = 0;
                Some(tail(code, 2))
            }
            _ => {
                self.draw(operator)?;
                self.count = 0;
                Some(tail(code, 1))
            }
        }
    }

    /// Counts the stem hints that the numbers are, two each.
    fn count_stems(&mut self) {
        self.stems = self.stems.saturating_add(self.count as u32 / 2);
    }

    /// What follows a mask of the hints. A mask that is cut short is none.
    fn behind_mask<'a>(&mut self, code: &'a [u8]) -> &'a [u8] {
        if self.mask_size.is_none() {
            self.count_stems();
        }
        let size = self.mask_size.unwrap_or((self.stems as usize + 7) / 8);
        self.mask_size = Some(size);
        if size <= code.len() {
            self.count = 0;
            tail(code, size)
        } else {
            code
        }
    }

    /// An operator that draws, of one byte. One that is unknown does nothing.
    fn draw(&mut self, operator: u8) -> Option<()> {
        let numbers = &self.numbers[..self.count];
        let path = &mut self.path;
        match operator {
            4 | 21 | 22 => move_to(path, operator, numbers),
            _ => {
                draw_by(path, operator, numbers);
                Some(())
            }
        }
    }

    /// An operator of two bytes, by the second. One that is unknown does nothing.
    fn flex(&mut self, operator: u8) -> Option<()> {
        let numbers = &self.numbers[..self.count];
        let path = &mut self.path;
        match operator {
            34 => horizontal_flex(path, numbers),
            35 => flex(path, numbers),
            36 => horizontal_flex_1(path, numbers),
            37 => flex_1(path, numbers),
            _ => Some(()),
        }
    }

    /// The accented character that the last numbers say, if there are four.
    fn accented(&self) -> Option<Accented> {
        let last = self.count.checked_sub(4)?;
        Some(Accented {
            accent_at: Point {
                x: i64::from(self.numbers[last]),
                y: i64::from(self.numbers[last + 1]),
            },
            base: whole_units(self.numbers[last + 2]),
            accent: whole_units(self.numbers[last + 3]),
        })
    }
}

/// A number without its fraction, in font units.
fn whole_units(number: i32) -> i32 {
    number / UNIT
}

/// `rmoveto`, `hmoveto` and `vmoveto`, which take their numbers from the end: the glyph's width may
/// stand before them.
fn move_to(path: &mut Path, operator: u8, numbers: &[i32]) -> Option<()> {
    let last = numbers.len().checked_sub(1)?;
    let number = i64::from(numbers[last]);
    let by = match operator {
        22 => Point { x: number, y: 0 },
        4 => Point { x: 0, y: number },
        _ => Point {
            x: i64::from(numbers[last.checked_sub(1)?]),
            y: number,
        },
    };
    path.move_by(by);
    Some(())
}
