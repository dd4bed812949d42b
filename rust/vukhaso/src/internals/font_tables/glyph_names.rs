// Written by tools/plain_rust from crates/font_tables. Do not edit.

//! Names of glyphs (OpenType specification, "post - PostScript Table").

use crate::common::GlyphId;
use crate::font_tables::bytes::{part, tail, u8_at, u16_at, u32_at};
use crate::font_tables::macintosh_names::{macintosh_name, macintosh_names};
use crate::font_tables::rows::rows_within;
use crate::memory::{AllocError, Vec};

/// The version with the Macintosh's 258 glyphs, in their order.
const MACINTOSH_ORDER: u32 = 0x0001_0000;

/// The version with a number for each glyph.
const NUMBERED: u32 = 0x0002_0000;

/// How many names of its own a table may have: those that numbers of 16 bits leave behind the Macintosh's 258.
const MOST_OWN_NAMES: u32 = 65278;

/// The names in a table `post`, with an index of them.
///
/// # Proved
///
/// ```text
/// ghost has_version: { version ≡ unwrap_or (number_32 table.now 0) 0 }
/// ghost counts: { count ≡ index_count table.now }
/// ghost has_own: { own.now ≡ own_names table.now }
/// ghost has_starts: { (n : ℕ) → n < 65278 → slice_get starts.items n ≡ string_start own.now n }
/// ghost has_names: { map (λ name. name.now) macintosh.items ≡ slice_split (λ b. b == 32) macintosh_text }
/// ```
#[derive(Debug)]
pub struct PostNames<'a> {
    /// The bytes of the table.
    pub table: &'a [u8],
    version: u32,
    count: u16,
    own: &'a [u8],
    starts: Vec<u32>,
    macintosh: Vec<&'static str>,
}

impl<'a> PostNames<'a> {
    /// The names in these bytes, with an index that is made once. Only memory may run out.
    ///
    /// # Errors
    ///
    /// `Err(AllocError)` where memory ran out.
    ///
    /// # Proved
    ///
    /// ```text
    /// ensures { IfOk result (λ names. names.table.now ≡ table.now) }
    /// ```
    #[inline]
    pub fn new(table: &'a [u8]) -> Result<Self, AllocError> {
        let version = u32_at(table, 0).unwrap_or(0);
        let count = index_count(table);
        let own = tail(table, 34 + 2 * usize::from(count));
        let starts = string_starts(own)?;
        let macintosh = macintosh_names()?;
        Ok(PostNames {
            table,
            version,
            count,
            own,
            starts,
            macintosh,
        })
    }

    /// The bytes of a glyph's name, in time that does not grow with the number of names; `None` where the
    /// font does not name it. By the specification names are ASCII.
    ///
    /// # Proved
    ///
    /// ```text
    /// ensures { option_copied result ≡ glyph_name self.now.table.now glyph.0 }
    /// ```
    #[inline]
    pub fn name(&self, glyph: GlyphId) -> Option<&'a [u8]> {
        match self.version {
            MACINTOSH_ORDER => macintosh_name(&self.macintosh, glyph.0),
            NUMBERED if glyph.0 < self.count => {
                let number = u16_at(self.table, 34 + 2 * usize::from(glyph.0))?;
                let name = self.name_of(number)?;
                if name.is_empty() { None } else { Some(name) }
            }
            _ => None,
        }
    }

    /// The name of a number.
    fn name_of(&self, number: u16) -> Option<&'a [u8]> {
        if number < 258 {
            macintosh_name(&self.macintosh, number)
        } else {
            let start = *self.starts.get(usize::from(number - 258))?;
            Some(string_of(self.own, start))
        }
    }
}

/// How many numbers of glyphs lie in the table.
fn index_count(post: &[u8]) -> u16 {
    let declared = u16_at(post, 32).unwrap_or(0);
    rows_within(post, 34, 2, usize::from(declared)) as u16
}

/// The bytes of the string that begins at a place.
fn string_of(strings: &[u8], at: u32) -> &[u8] {
    let size = u8_at(strings, at as usize).unwrap_or(0);
    part(strings, at as usize + 1, usize::from(size))
}

/// Where each of the first strings begins.
fn string_starts(strings: &[u8]) -> Result<Vec<u32>, AllocError> {
    let mut starts = Vec::new();
    let mut at = 0;
    for _row in 0..MOST_OWN_NAMES {
        match string_size(strings, at) {
            Some(size) => {
                starts.push(at as u32)?;
                at += 1 + usize::from(size);
            }
            None => return Ok(starts),
        }
    }
    Ok(starts)
}

/// How many bytes the string that begins at a place has, if it ends in these bytes.
fn string_size(strings: &[u8], at: usize) -> Option<u8> {
    let size = u8_at(strings, at)?;
    if usize::from(size) < strings.len() - at {
        Some(size)
    } else {
        None
    }
}
