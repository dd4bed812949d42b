//! INDEX and DICT data (The Compact Font Format Specification, "INDEX Data", "DICT Data"; OpenType specification, `CFF2`).

use crate::outline::reader::Reader;
use crate::sfnt::tail;

pub const CHARSET: u16 = 15;
pub const CHAR_STRINGS: u16 = 17;
pub const PRIVATE: u16 = 18;
pub const SUBROUTINES: u16 = 19;
pub const VARIATION_SET: u16 = 22;
pub const VARIATION_STORE: u16 = 24;
pub const FONT_DICTS: u16 = 256 + 36;
pub const FONT_DICT_SELECT: u16 = 256 + 37;

/// A list of pieces of bytes.
#[derive(Clone, Copy, Default)]
pub struct Index<'a> {
    pub count: usize,
    offset_size: usize,
    offsets: &'a [u8],
    /// The items, from the byte before the first on.
    items: &'a [u8],
}

impl<'a> Index<'a> {
    /// The list at the front of these bytes, whose count has two bytes, or four in `CFF2`; an empty one where it is broken.
    pub fn new(bytes: &'a [u8], count_size: usize) -> Self {
        Self::read(bytes, count_size).unwrap_or_default()
    }

    fn read(bytes: &'a [u8], count_size: usize) -> Option<Self> {
        let mut rest = Reader(bytes);
        let count = rest.number(count_size)? as usize;
        let offset_size = rest.number(1).filter(|size| (1..=4).contains(size))? as usize;
        let size = count.checked_add(1)?.checked_mul(offset_size)?;
        let offsets = rest.take(size)?;
        Some(Index { count, offset_size, offsets, items: tail(bytes, count_size + size) })
    }

    pub fn item(&self, number: usize) -> Option<&'a [u8]> {
        if number >= self.count {
            return None;
        }
        let offset = |number: usize| Reader(tail(self.offsets, number * self.offset_size)).number(self.offset_size);
        Some(self.items.get(offset(number)? as usize..offset(number + 1)? as usize).unwrap_or(&[]))
    }

    /// A subroutine by the number that a charstring has for it.
    pub fn subroutine(&self, number: i32) -> Option<&'a [u8]> {
        let bias = match self.count {
            0..1240 => 107,
            1240..33900 => 1131,
            _ => 32768,
        };
        self.item(usize::try_from(number.checked_add(bias)?).ok()?)
    }
}

/// What a DICT says: each operator with the numbers before it.
#[derive(Default)]
pub struct Dict(Vec<(u16, Vec<i32>)>);

impl Dict {
    /// `None` where it is cut short.
    pub fn read(data: &[u8]) -> Option<Self> {
        let mut rest = Reader(data);
        let mut dict = Dict::default();
        let mut numbers = Vec::new();
        while !rest.is_empty() {
            match rest.u8()? {
                12 => dict.0.push((256 + u16::from(rest.u8()?), std::mem::take(&mut numbers))),
                29 => numbers.push(rest.i32()?),
                30 => {
                    while !(rest.u8().map(|byte| byte / 16 == 15 || byte % 16 == 15)?) {}
                    // None of the numbers that are asked for is a fraction.
                    numbers.push(0);
                }
                first @ (28 | 32..=254) => numbers.push(number(first, &mut rest)?),
                operator => dict.0.push((operator.into(), std::mem::take(&mut numbers))),
            }
        }
        Some(dict)
    }

    /// The last numbers of an operator; zeros where they are missing.
    pub fn last<const COUNT: usize>(&self, operator: u16) -> [i32; COUNT] {
        let numbers = self.0.iter().rev().find(|(found, _)| *found == operator).map_or(&[][..], |(_, numbers)| numbers);
        std::array::from_fn(|place| (numbers.len() + place).checked_sub(COUNT).map_or(0, |place| numbers[place]))
    }

    /// What an offset leads to; none where it is not said.
    pub fn part<'a>(&self, operator: u16, table: &'a [u8]) -> &'a [u8] {
        at_offset(table, self.last::<1>(operator)[0])
    }
}

/// The table from an offset on; none where the offset is 0 or below.
pub fn at_offset(table: &[u8], offset: i32) -> &[u8] {
    if offset > 0 { tail(table, offset as usize) } else { &[] }
}

/// A whole number of DICTs and charstrings, by its first byte.
pub fn number(first: u8, rest: &mut Reader) -> Option<i32> {
    let first = i32::from(first);
    Some(match first {
        28 => rest.i16()?.into(),
        32..=246 => first - 139,
        247..=250 => (first - 247) * 256 + i32::from(rest.u8()?) + 108,
        _ => -(first - 251) * 256 - i32::from(rest.u8()?) - 108,
    })
}
