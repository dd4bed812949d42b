// Written by tools/plain_rust from crates/script_joining. Do not edit.

//! Marks that are stretched over a word: their pieces are repeated behind the glyphs of the word (OpenType, feature `stch`).

use crate::buffer::{Direction, HB_BUFFER_SCRATCH_FLAG_SHAPER0, hb_buffer_t};
use crate::glyph::{GlyphPosition, GlyphPropsFlags, hb_glyph_info_t};
use crate::memory::{AllocError, Vec};
use crate::script_items::font::FontGlyphs;
use crate::script_items::item::{set_shaper_byte, shaper_byte};
use crate::script_joining::arabic::measure::{FIXED, REPEATING, Stretch, last_stretch};

/// The glyphs of a text in which marks are stretched, in the order of the buffer.
#[derive(Debug)]
struct Stretched {
    /// How often each glyph of the text stands in it.
    counts: Vec<usize>,
    /// The position of each glyph, and of each copy.
    positions: Vec<GlyphPosition>,
    is_right_to_left: bool,
}

/// Lets the pieces of a mark that a lookup made of it keep whether they are repeated: each second one
/// is.
///
/// # Requires
///
/// - `buffer.old.have_output ≡ false`
///
/// # Proved
///
/// ```text
/// ensures is { buffer.new ≡ arabic.pieces_recorded buffer.old }
/// ensures stays { StaysClosed buffer.old buffer.new }
/// ```
#[inline]
pub fn record_pieces(buffer: &mut hb_buffer_t) {
    debug_assert!(!buffer.have_output());
    let has_pieces = has_pieces(buffer.info());
    record_in(buffer);
    note_pieces(buffer, has_pieces);
}

/// Remembers that the text has pieces, if it has.
///
/// # Requires
///
/// - `buffer.old.have_output ≡ false`
fn note_pieces(buffer: &mut hb_buffer_t, has_pieces: bool) {
    debug_assert!(!buffer.have_output());
    if has_pieces {
        buffer.scratch_flags = buffer.scratch_flags | HB_BUFFER_SCRATCH_FLAG_SHAPER0;
    }
}

/// Lets each piece of a buffer keep whether it is repeated.
///
/// # Requires
///
/// - `buffer.old.have_output ≡ false`
fn record_in(buffer: &mut hb_buffer_t) {
    debug_assert!(!buffer.have_output());
    record_all(buffer.info_slice_mut());
}

/// Whether there are pieces.
fn has_pieces(infos: &[hb_glyph_info_t]) -> bool {
    infos.iter().any(|info| is_multiplied(info))
}

/// Lets each piece keep whether it is repeated.
fn record_all(infos: &mut [hb_glyph_info_t]) {
    for info in infos.iter_mut() {
        record_piece(info);
    }
}

/// Lets an item keep whether it is repeated, if it is a piece.
fn record_piece(info: &mut hb_glyph_info_t) {
    if is_multiplied(info) {
        let number = piece_number(component(info));
        set_shaper_byte(info, number);
    }
}

/// The number that a piece keeps: each second one is repeated.
fn piece_number(component: u8) -> u8 {
    if component % 2 == 1 { REPEATING } else { FIXED }
}

/// Whether a lookup made the glyph of one, with others.
fn is_multiplied(info: &hb_glyph_info_t) -> bool {
    info.glyph_props() & GlyphPropsFlags::MULTIPLIED.bits() != 0
}

/// Which of the glyphs that a lookup made of one this is, from 0 on.
fn component(info: &hb_glyph_info_t) -> u8 {
    let properties = info.lig_props();
    if properties & 0x10 != 0 {
        0
    } else {
        properties & 0xF
    }
}

/// Stretches the marks that are in pieces, each over the word before it.
///
/// # Requires
///
/// - `HasPositions buffer.old`
///
/// # Errors
///
/// `Ok(false)` where the text would become too long. `Err(AllocError)` where memory ran out.
///
/// # Proved
///
/// ```text
/// ensures placed { IfOk result (λ done. done ≡ true → IsSome buffer.new.positions) }
/// ensures done { IfOk result (λ done. done ≡ true → buffer.new.successful ≡ buffer.old.successful) }
/// ensures closes { Closes result buffer.old buffer.new }
/// ```
#[inline]
pub fn stretch<F: FontGlyphs>(buffer: &mut hb_buffer_t, font: &F) -> Result<bool, AllocError> {
    debug_assert!(!buffer.have_output() && buffer.have_positions());
    if buffer.scratch_flags & HB_BUFFER_SCRATCH_FLAG_SHAPER0 == 0 {
        return Ok(true);
    }
    match stretched_line(buffer, font)? {
        Some(stretched) => stretched.put_into(buffer),
        None => Ok(false),
    }
}

/// What a text becomes, whichever way its line runs; `None` where it would become too long. Where words
/// stand behind their marks, the text is reversed while it is read.
///
/// # Requires
///
/// - `HasPositions buffer.old`
fn stretched_line<F: FontGlyphs>(
    buffer: &mut hb_buffer_t,
    font: &F,
) -> Result<Option<Stretched>, AllocError> {
    debug_assert!(!buffer.have_output() && buffer.have_positions());
    if buffer.direction == Direction::RightToLeft {
        return stretched_text(buffer, font, true);
    }
    buffer.reverse();
    let stretched = stretched_text(buffer, font, false);
    buffer.reverse();
    stretched
}

/// What a text becomes whose words stand before their marks; `None` where it would become too long.
///
/// # Requires
///
/// - `HasPositions buffer.old`
fn stretched_text<F: FontGlyphs>(
    buffer: &mut hb_buffer_t,
    font: &F,
    is_right_to_left: bool,
) -> Result<Option<Stretched>, AllocError> {
    debug_assert!(!buffer.have_output() && buffer.have_positions());
    let stretches = stretches_of(buffer, font)?;
    if !buffer.ensure(stretched_length(buffer.len(), stretches.as_slice()))? {
        return Ok(None);
    }
    flag_words(buffer, stretches.as_slice());
    let stretched = Stretched::of(buffer, stretches.as_slice(), font, is_right_to_left)?;
    Ok(Some(stretched))
}

/// Flags each word with its marks as unsafe to break.
///
/// # Requires
///
/// - `HasPositions buffer.old`
fn flag_words(buffer: &mut hb_buffer_t, stretches: &[Stretch]) {
    debug_assert!(!buffer.have_output() && buffer.have_positions());
    for stretch in stretches {
        if stretch.word <= stretch.end && stretch.end <= buffer.len() {
            buffer.unsafe_to_break(Some(stretch.word), Some(stretch.end));
        }
    }
}

/// The marks that are stretched, from the last to the first.
///
/// # Requires
///
/// - `HasPositions buffer.now`
fn stretches_of<F: FontGlyphs>(buffer: &hb_buffer_t, font: &F) -> Result<Vec<Stretch>, AllocError> {
    debug_assert!(!buffer.have_output() && buffer.have_positions());
    let infos = buffer.info();
    let positions = buffer.pos();
    let mut stretches = Vec::new();
    let mut end = infos.len();
    for _turn in 0..infos.len() {
        match last_stretch(infos, positions, end, font) {
            Some(stretch) => {
                end = stretch.start;
                stretches.push(stretch)?;
            }
            None => break,
        }
    }
    Ok(stretches)
}

/// How long a text of so many glyphs becomes.
fn stretched_length(length: usize, stretches: &[Stretch]) -> usize {
    let mut length = length;
    for stretch in stretches {
        length = length.saturating_add(usize::try_from(stretch.added).unwrap_or(usize::MAX));
    }
    length
}

impl Stretched {
    /// The text in which these marks are stretched.
    ///
    /// # Requires
    ///
    /// - `IsSome buffer.now.positions`
    fn of<F: FontGlyphs>(
        buffer: &hb_buffer_t,
        stretches: &[Stretch],
        font: &F,
        is_right_to_left: bool,
    ) -> Result<Stretched, AllocError> {
        debug_assert!(buffer.have_positions());
        let mut stretched = Stretched {
            counts: Vec::new(),
            positions: Vec::new(),
            is_right_to_left,
        };
        stretched.fill(buffer.info(), buffer.pos(), stretches, font)?;
        if is_right_to_left {
            stretched.counts.reverse();
            stretched.positions.reverse();
        }
        Ok(stretched)
    }

    /// Fills the lists with a text in which marks are stretched, from its last glyph to the first.
    fn fill<F: FontGlyphs>(
        &mut self,
        infos: &[hb_glyph_info_t],
        positions: &[GlyphPosition],
        stretches: &[Stretch],
        font: &F,
    ) -> Result<(), AllocError> {
        let mut end = infos.len();
        for stretch in stretches {
            self.keep(positions.get(stretch.end..end))?;
            self.stretch(infos, positions, stretch, font)?;
            end = stretch.start;
        }
        self.keep(positions.get(..end))
    }

    /// Adds glyphs as they are, if there are any.
    fn keep(&mut self, positions: Option<&[GlyphPosition]>) -> Result<(), AllocError> {
        for position in positions.unwrap_or(&[]).iter().rev() {
            self.counts.push(1)?;
            self.positions.push(*position)?;
        }
        Ok(())
    }

    /// Adds the pieces of a mark, as often as they are repeated.
    fn stretch<F: FontGlyphs>(
        &mut self,
        infos: &[hb_glyph_info_t],
        positions: &[GlyphPosition],
        stretch: &Stretch,
        font: &F,
    ) -> Result<(), AllocError> {
        let mut offset = stretch.offset;
        if let Some(infos) = infos.get(stretch.start..stretch.end) {
            if let Some(positions) = positions.get(stretch.start..stretch.end) {
                for (info, position) in infos.iter().rev().zip(positions.iter().rev()) {
                    let width = i64::from(font.horizontal_advance(info.glyph_id));
                    offset = self.repeat(info, position, stretch, width, offset)?;
                }
            }
        }
        Ok(())
    }

    /// Adds a piece as often as it is repeated, the first drawn at `offset`. Where the next one is drawn.
    fn repeat(
        &mut self,
        info: &hb_glyph_info_t,
        position: &GlyphPosition,
        stretch: &Stretch,
        width: i64,
        offset: i64,
    ) -> Result<i64, AllocError> {
        let copies = if shaper_byte(info) == REPEATING {
            usize::try_from(stretch.copies).unwrap_or(0)
        } else {
            0
        };
        self.counts.push(copies.saturating_add(1))?;
        let mut offset = self.add_piece(position, width, offset)?;
        for _turn in 0..copies {
            let step = width.wrapping_sub(stretch.overlap);
            offset = self.add_piece(position, step, offset)?;
        }
        Ok(offset)
    }

    /// Adds the position of a piece that is so wide. Where the next one is drawn.
    fn add_piece(
        &mut self,
        position: &GlyphPosition,
        width: i64,
        offset: i64,
    ) -> Result<i64, AllocError> {
        let (place, next) = piece_places(self.is_right_to_left, width, offset);
        self.positions.push(GlyphPosition {
            x_advance: 0,
            x_offset: i32::try_from(place).unwrap_or(0),
            ..*position
        })?;
        Ok(next)
    }

    /// Repeats the glyphs of a buffer, and sets the positions of all.
    ///
    /// # Requires
    ///
    /// - `buffer.old.have_output ≡ false`
    fn put_into(self, buffer: &mut hb_buffer_t) -> Result<bool, AllocError> {
        debug_assert!(!buffer.have_output());
        if !repeat_glyphs(buffer, self.counts.as_slice())? {
            return Ok(false);
        }
        buffer.clear_positions();
        put_positions(buffer.pos_mut(), self.positions.as_slice());
        Ok(true)
    }
}

/// Where a piece that is so wide is drawn, and where the next one.
fn piece_places(is_right_to_left: bool, width: i64, offset: i64) -> (i64, i64) {
    if is_right_to_left {
        let place = offset.wrapping_sub(width);
        (place, place)
    } else {
        (offset, offset.wrapping_add(width))
    }
}

/// Puts positions in place of others.
fn put_positions(places: &mut [GlyphPosition], positions: &[GlyphPosition]) {
    for (place, position) in places.iter_mut().zip(positions.iter()) {
        *place = *position;
    }
}

/// Lets each glyph of a buffer stand as often as it is to.
///
/// # Requires
///
/// - `buffer.old.have_output ≡ false`
fn repeat_glyphs(buffer: &mut hb_buffer_t, counts: &[usize]) -> Result<bool, AllocError> {
    debug_assert!(!buffer.have_output());
    buffer.clear_output();
    for count in counts {
        if !repeat_glyph(buffer, *count)? {
            return Ok(false);
        }
    }
    buffer.sync()
}

/// Puts the current glyph out so often, and reads it, if there is one.
///
/// # Requires
///
/// - `buffer.old.have_output ≡ true`
fn repeat_glyph(buffer: &mut hb_buffer_t, count: usize) -> Result<bool, AllocError> {
    debug_assert!(buffer.have_output());
    if buffer.lookahead_len() == 0 {
        return Ok(true);
    }
    for _turn in 1..count {
        if !buffer.copy_glyph()? {
            return Ok(false);
        }
    }
    buffer.next_glyph()
}
