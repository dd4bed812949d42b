// Written by tools/plain_rust from crates/shaping_bench. Do not edit.

//! Passes of a shaper over a list of glyphs, each as one value, and the lists that they go over.

use crate::anyhow::bail;
use crate::shaping_bench::item::{last_id, low_bits, shaped};
use crate::shaping_bench::measuring::Item;
use crate::shaping_bench::shaper_tables::Tables;
use std::mem;
use vukhaso::internals::buffer::{CombiningClasses, UnicodeBuffer, hb_buffer_t};
use vukhaso::internals::passes::{
    compose_marks, decompose_all, hide_default_ignorables, line_ends, order_marks,
};
use vukhaso::memory::AllocError;

/// Of three characters the first is precomposed, the second a letter, and the third the mark behind it.
static ACCENTED: [char; 12] = [
    'é', 'a', '\u{300}', 'ö', 'n', '\u{303}', 'ç', 'u', '\u{30A}', 'ế', 'o', '\u{302}',
];

/// Each letter has two marks behind it, and the first of them belongs behind the second.
static MARKS_OUT_OF_ORDER: [char; 12] = [
    'a', '\u{301}', '\u{323}', 'e', '\u{302}', '\u{327}', 'o', '\u{308}', '\u{328}', 'u',
    '\u{30A}', '\u{331}',
];

/// Small letters.
static LETTERS: [char; 18] = [
    'f', 'i', 'n', 'a', 'l', 'e', 'f', 'l', 'o', 'u', 'r', 'e', 's', 't', 'a', 'r', 'e', 'd',
];

/// Each fourth character is invisible by default: spaces of no width, joiners of words, hyphens at which a word may end.
static IGNORABLES: [char; 12] = [
    'w', 'o', 'r', '\u{200B}', 'd', 'b', 'r', '\u{2060}', 'e', 'a', 'k', '\u{AD}',
];

/// How far a glyph moves the pen, in units of the font.
const ADVANCE: i32 = 600;

/// The width of each line: that of 60 glyphs.
const WIDTHS: [i64; 1] = [36_000];

/// A pass of a shaper.
#[derive(Clone, Copy, Debug)]
pub enum ShaperPass {
    DecomposeAll,
    OrderMarks,
    ComposeMarks,
    HideDefaultIgnorables,
    LineEnds,
}

impl ShaperPass {
    /// The characters of the text that the pass goes over, which it repeats as often as it takes.
    fn characters(self) -> &'static [char] {
        match self {
            ShaperPass::DecomposeAll | ShaperPass::ComposeMarks => &ACCENTED,
            ShaperPass::OrderMarks => &MARKS_OUT_OF_ORDER,
            ShaperPass::LineEnds => &LETTERS,
            ShaperPass::HideDefaultIgnorables => &IGNORABLES,
        }
    }

    /// Whether the glyphs have positions.
    fn has_positions(self) -> bool {
        matches!(self, ShaperPass::LineEnds)
    }

    /// Makes the pass, and gives a number that it decides.
    ///
    /// # Requires
    ///
    /// That no output is open.
    ///
    /// - `buffer.old.have_output ≡ false`
    ///
    /// # Errors
    ///
    /// `Ok(None)` where a call was refused.
    fn run(
        self,

        tables: &Tables<'_>,
        buffer: &mut hb_buffer_t,
    ) -> Result<Option<usize>, AllocError> {
        debug_assert!(!buffer.have_output());
        let done = match self {
            ShaperPass::DecomposeAll => decompose_all(buffer, &tables.decompositions)?,
            ShaperPass::OrderMarks => {
                order_marks(buffer, &tables.classes);
                true
            }
            ShaperPass::ComposeMarks => {
                compose_marks(buffer, &tables.compositions, &tables.classes)?
            }
            ShaperPass::HideDefaultIgnorables => {
                hide_default_ignorables(buffer);
                true
            }
            ShaperPass::LineEnds => return count_lines(buffer),
        };
        Ok(done.then_some(buffer.len()))
    }
}

/// How many lines the glyphs take.
///
/// # Requires
///
/// - `buffer.now.have_output ≡ false`
///
/// # Errors
///
/// `Ok(None)` where they have no positions.
fn count_lines(buffer: &hb_buffer_t) -> Result<Option<usize>, AllocError> {
    debug_assert!(!buffer.have_output());
    if !buffer.have_positions() {
        return Ok(None);
    }
    let ends = line_ends(buffer.info(), buffer.pos(), &WIDTHS)?;
    Ok(Some(ends.len()))
}

/// A buffer that a pass of a shaper goes over. It is used again from run to run.
#[derive(Debug)]
pub struct ShaperItem<'a> {
    pass: ShaperPass,
    tables: &'a Tables<'a>,
    size: usize,
    buffer: hb_buffer_t,
}

impl<'a> ShaperItem<'a> {
    /// # Proved
    ///
    /// That it returns.
    #[inline]
    pub fn new(pass: ShaperPass, tables: &'a Tables<'a>, size: usize) -> Self {
        ShaperItem {
            pass,
            tables,
            size,

            buffer: hb_buffer_t::new(),
        }
    }
}

impl<'a> Item for ShaperItem<'a> {
    fn prepare(&mut self) -> crate::anyhow::Result<()> {
        let buffer = mem::replace(&mut self.buffer, hb_buffer_t::new());
        let characters = shaped(buffer)?.clear();
        self.buffer = filled(characters, self.size, self.pass.characters())?;
        if self.buffer.have_output() {
            bail!("a call was refused");
        }
        set_unicode_props(&mut self.buffer, &self.tables.classes);
        if self.pass.has_positions() {
            set_advances(&mut self.buffer);
        }
        Ok(())
    }

    fn run(&mut self) -> crate::anyhow::Result<u32> {
        if self.buffer.have_output() {
            bail!("a call was refused");
        }
        let Some(number) = self.pass.run(self.tables, &mut self.buffer)? else {
            bail!("a call was refused");
        };
        Ok(low_bits(number).wrapping_add(last_id(&self.buffer)))
    }
}

/// The characters of a text in turn, as many as asked for, each a cluster of its own.
fn filled(
    mut characters: UnicodeBuffer,
    size: usize,
    text: &[char],
) -> crate::anyhow::Result<hb_buffer_t> {
    let count = text.len().max(1);
    for i in 0..size {
        let c = text.get(i % count).copied().unwrap_or('?');
        if !characters.add(c, low_bits(i))? {
            bail!("a character was refused");
        }
    }
    Ok(characters.into_buffer())
}

/// Sets the properties of each character.
///
/// # Requires
///
/// - `buffer.old.have_output ≡ false`
fn set_unicode_props(buffer: &mut hb_buffer_t, classes: &CombiningClasses) {
    debug_assert!(!buffer.have_output());
    let mut scratch_flags = buffer.scratch_flags;
    for glyph in buffer.info_slice_mut() {
        if char::from_u32(glyph.glyph_id).is_some() {
            glyph.init_unicode_props(&mut scratch_flags, classes);
        }
    }
    buffer.scratch_flags = scratch_flags;
}

/// Gives each glyph a position, and the same advance.
///
/// # Requires
///
/// - `buffer.old.have_output ≡ false`
fn set_advances(buffer: &mut hb_buffer_t) {
    debug_assert!(!buffer.have_output());
    buffer.clear_positions();
    for position in buffer.pos_mut() {
        position.x_advance = ADVANCE;
    }
}
