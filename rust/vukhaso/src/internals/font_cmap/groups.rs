// Written by tools/plain_rust from crates/font_cmap. Do not edit.

//! Groups of codes, each with its first and last code and a glyph (OpenType specification, `cmap`, "Format 12" and
//! "Format 13").

use crate::font_cmap::arrays::some_glyph;
use crate::font_cmap::low_numbers::low_u32_at;
use crate::font_cmap::runs::{Beside, CodeRows, FIRST_COUNT, row_run};
use core::cmp::Ordering;

/// The groups of a subtable.
#[derive(Clone, Copy, Debug)]
struct Groups<'a>(&'a [u8]);

///
/// # Proved
///
/// ```text
/// ghost place_of = { λ groups code row. beside_group groups.0.now code row }
/// ```
impl CodeRows for Groups<'_> {
    #[inline(always)]
    fn beside_run(&self, code: u32, row: u32) -> Beside {
        let outside = Beside {
            order: None,
            last: u32::MAX,
        };
        let Some(start) = low_u32_at(self.0, 16 + 12 * row as usize) else {
            return outside;
        };
        if code < start {
            return Beside {
                order: Some(Ordering::Less),
                last: start - 1,
            };
        }
        match low_u32_at(self.0, 20 + 12 * row as usize) {
            None => outside,
            Some(end) if end < code => Beside {
                order: Some(Ordering::Greater),
                last: u32::MAX,
            },
            Some(end) => Beside {
                order: Some(Ordering::Equal),
                last: end,
            },
        }
    }
}

/// How many groups there are.
fn group_count(table: &[u8]) -> u32 {
    low_u32_at(table, 12).unwrap_or(0)
}

/// The glyph that a group gives to a code that it reaches.
fn glyph_in_group(format: u16, code: u32, start: u32, glyph: u32) -> Option<u16> {
    some_glyph(u64::from(number_in_group(format, code, start, glyph)))
}

/// The number of that glyph; 0 where there is none.
fn number_in_group(format: u16, code: u32, start: u32, glyph: u32) -> u16 {
    if code < start {
        return 0;
    }
    let number = if format == 12 {
        glyph.saturating_add(code - start)
    } else {
        glyph
    };
    if number > 65535 { 0 } else { number as u16 }
}

/// A group: its first code, and the glyph of that.
#[derive(Clone, Copy, Debug)]
struct Group {
    start: u32,
    glyph: u32,
}

/// The group of a row.
fn group_of(table: &[u8], row: u32) -> Option<Group> {
    let start = low_u32_at(table, 16 + 12 * row as usize)?;
    let glyph = low_u32_at(table, 24 + 12 * row as usize)?;
    Some(Group { start, glyph })
}

/// The group that codes have, from one on up to `last`.
#[derive(Clone, Copy, Debug)]
struct GroupRun {
    group: Option<Group>,
    last: u32,
}

impl GroupRun {
    /// Puts the numbers of the glyphs of codes from one to before another in their places.
    ///
    /// # Requires
    ///
    /// - `end ≤ 128`
    #[inline(always)]
    fn put(&self, glyphs: &mut [u16; FIRST_COUNT], start: usize, end: usize, format: u16) {
        debug_assert!(end <= 128);
        for code in start..end {
            glyphs[code] = match &self.group {
                Some(group) => number_in_group(format, code as u32, group.start, group.glyph),
                None => 0,
            };
        }
    }
}

/// The group of a code and of those behind it.
#[inline(always)]
fn group_run(table: &[u8], code: u32) -> GroupRun {
    let run = row_run(&Groups(table), group_count(table), code);
    let group = match run.row {
        Some(row) => group_of(table, row),
        None => None,
    };
    GroupRun {
        group,
        last: run.last,
    }
}

/// The glyph of a code by format 12 or 13.
pub(crate) fn groups_glyph(table: &[u8], format: u16, code: u32) -> Option<u16> {
    let run = group_run(table, code);
    let group = run.group?;
    glyph_in_group(format, code, group.start, group.glyph)
}

/// The numbers of the glyphs of the first codes by format 12 or 13; 0 where a code has none.
pub(crate) fn first_groups_glyphs(table: &[u8], format: u16) -> [u16; FIRST_COUNT] {
    let mut glyphs = [0; FIRST_COUNT];
    let mut code = 0;
    while code < FIRST_COUNT {
        let run = group_run(table, code as u32);
        let end = FIRST_COUNT.min((run.last as usize).saturating_add(1));
        run.put(&mut glyphs, code, end, format);
        code = end;
    }
    glyphs
}
