// Written by tools/plain_rust from crates/outline_tables. Do not edit.

//! DICT data (The Compact Font Format Specification, "DICT Data").

use crate::font_tables::bytes::{tail, u8_at, u32_at};
use crate::numbers::ToSigned;
use crate::outline_tables::operand::{number, number_length};

/// What outlines need of a Top DICT, a Font DICT or a Private DICT: 0 where the DICT does not say it.
#[derive(Clone, Copy, Debug, Default)]
pub struct Dict {
    /// The offset of the charset, or the number of a predefined one.
    pub charset: i32,
    /// The offset of the INDEX of charstrings.
    pub char_strings: i32,
    /// The size of the Private DICT.
    pub private_size: i32,
    /// The offset of the Private DICT.
    pub private_offset: i32,
    /// The offset of the local subroutines, from the start of the Private DICT.
    pub subroutines: i32,
    /// The offset of the INDEX of Font DICTs.
    pub font_dicts: i32,
    /// The offset of the table that chooses a glyph's Font DICT.
    pub font_dict_select: i32,
    /// The offset of the deltas of variations, in the table `CFF2`.
    pub variation_store: i32,
    /// Which regions the deltas of charstrings are for, in the table `CFF2`.
    pub variation_set: i32,
    /// Whether the font is CID-keyed: its glyphs have numbers in place of names.
    pub is_cid: bool,
}

/// A number or an operator of DICT data.
#[derive(Clone, Copy, Debug)]
enum Token {
    Number(i32),
    Operator(u16),
}

/// The numbers before an operator.
#[derive(Clone, Copy, Debug)]
struct Numbers {
    count: usize,
    last: i32,
    before: i32,
}

impl Dict {
    /// What DICT data say; `None` where they are broken.
    ///
    /// # Proved
    ///
    /// ```text
    /// ensures { result ≡ dict_of data.now }
    /// ```
    #[inline]
    pub fn read(data: &[u8]) -> Option<Dict> {
        let mut dict = Dict::default();
        let mut numbers = Numbers::none();
        let mut rest = data;
        for _ in data {
            if rest.is_empty() {
                break;
            }
            let (token, after) = next_token(rest)?;
            match token {
                Token::Number(number) => numbers.push(number),
                Token::Operator(operator) => {
                    dict.set(operator, numbers)?;
                    numbers = Numbers::none();
                }
            }
            rest = after;
        }
        Some(dict)
    }

    /// Takes the numbers before an operator; `None` where it has too few.
    fn set(&mut self, operator: u16, numbers: Numbers) -> Option<()> {
        if numbers.count < takes(operator) {
            return None;
        }
        self.say(operator, numbers);
        Some(())
    }

    /// What an operator says by the numbers before it.
    fn say(&mut self, operator: u16, numbers: Numbers) {
        match operator {
            15 => self.charset = numbers.last,
            17 => self.char_strings = numbers.last,
            18 => {
                self.private_size = numbers.before;
                self.private_offset = numbers.last;
            }
            19 => self.subroutines = numbers.last,
            22 => self.variation_set = numbers.last,
            24 => self.variation_store = numbers.last,
            ESCAPED_ROS => self.is_cid = true,
            ESCAPED_FD_ARRAY => self.font_dicts = numbers.last,
            ESCAPED_FD_SELECT => self.font_dict_select = numbers.last,
            _ => {}
        }
    }
}

/// An operator of two bytes is 256 more than its second byte.
const ESCAPED: u16 = 256;

const ESCAPED_ROS: u16 = 286;

const ESCAPED_FD_ARRAY: u16 = 292;

const ESCAPED_FD_SELECT: u16 = 293;

impl Numbers {
    fn none() -> Self {
        Numbers {
            count: 0,
            last: 0,
            before: 0,
        }
    }

    fn push(&mut self, number: i32) {
        self.before = self.last;
        self.last = number;
        self.count = self.count.saturating_add(1);
    }
}

/// How many numbers an operator takes, of those that are read.
fn takes(operator: u16) -> usize {
    match operator {
        18 => 2,
        15 | 17 | 19 | ESCAPED_FD_ARRAY | ESCAPED_FD_SELECT => 1,
        _ => 0,
    }
}

/// The number or operator at the front of DICT data, and what follows it.
fn next_token(data: &[u8]) -> Option<(Token, &[u8])> {
    let first = u8_at(data, 0)?;
    match first {
        12 => {
            let second = u8_at(data, 1)?;
            Some((Token::Operator(ESCAPED + u16::from(second)), tail(data, 2)))
        }
        29 => Some((Token::Number(u32_at(data, 1)?.to_signed()), tail(data, 5))),
        30 => Some((Token::Number(0), behind_real(tail(data, 1))?)),
        28 | 32..=254 => {
            let number = number(data)?;
            let after = tail(data, number_length(first));
            Some((Token::Number(i32::from(number)), after))
        }
        _ => Some((Token::Operator(u16::from(first)), tail(data, 1))),
    }
}

/// What follows a real number. No operator that outlines need takes one.
fn behind_real(data: &[u8]) -> Option<&[u8]> {
    let end = real_end(data)?;
    Some(tail(data, end + 1))
}

/// Where a real number ends: at the first half byte of ones.
fn real_end(data: &[u8]) -> Option<usize> {
    data.iter()
        .position(|byte| byte / 16 == 15 || byte % 16 == 15)
}
