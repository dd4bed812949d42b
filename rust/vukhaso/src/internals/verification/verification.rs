// Written by tools/plain_rust from crates/shaping_verification. Do not edit.

//! Tests of shaped glyphs by shaping parts of their text again (HarfBuzz's `hb_buffer_t::verify`).

use crate::buffer::{
    BufferFlags, GlyphBuffer, GlyphPosition, glyph_flag, hb_buffer_t, hb_glyph_info_t,
};
use crate::memory::{AllocError, Vec};
use crate::verification::comparison::is_elsewhere;
use crate::verification::original::Original;
use crate::verification::shape_error::ShapeError;

/// Why glyphs were not what they say of themselves.
#[derive(Clone, Copy, PartialEq, Eq, Debug)]
#[non_exhaustive]
pub enum VerifyError {
    /// Clusters neither rise nor fall along the line.
    NotMonotone,
    /// A text that was cut where it is not unsafe to break, and shaped in parts, has other glyphs.
    UnsafeToBreak,
    /// Parts of a text that was cut where it is not unsafe to join others have other glyphs beside other parts.
    UnsafeToConcat,
}

impl core::fmt::Display for VerifyError {
    fn fmt(&self, f: &mut core::fmt::Formatter<'_>) -> core::fmt::Result {
        match self {
            Self::NotMonotone => write!(f, "clusters are not monotone"),
            Self::UnsafeToBreak => write!(
                f,
                "a text that is cut where it is not unsafe to break has other glyphs"
            ),
            Self::UnsafeToConcat => write!(
                f,
                "a text that is joined where it is not unsafe to concatenate has other glyphs"
            ),
        }
    }
}

impl core::error::Error for VerifyError {}

/// Glyphs with their positions, in the order of the text.
#[derive(Clone, Copy, Debug)]
struct InOrder<'a> {
    infos: &'a [hb_glyph_info_t],
    positions: &'a [GlyphPosition],
    is_forward: bool,
}

impl<'a> InOrder<'a> {
    fn of(glyphs: &'a GlyphBuffer, is_forward: bool) -> Self {
        InOrder {
            infos: glyphs.glyph_infos(),
            positions: glyphs.glyph_positions(),
            is_forward,
        }
    }

    fn len(&self) -> usize {
        self.infos.len()
    }

    /// The glyph of a number, and its position.
    fn at(&self, number: usize) -> Option<(&'a hb_glyph_info_t, &'a GlyphPosition)> {
        let place = if self.is_forward {
            number
        } else {
            self.infos.len().checked_sub(number)?.checked_sub(1)?
        };
        Some((self.infos.get(place)?, self.positions.get(place)?))
    }

    /// Whether a glyph begins a cluster that has not this flag.
    fn begins(&self, number: usize, flag: u32) -> bool {
        let Some(before) = number.checked_sub(1) else {
            return false;
        };
        match (self.at(before), self.at(number)) {
            (Some((before, _)), Some((info, _))) => {
                before.cluster != info.cluster && info.mask & flag == 0
            }
            _ => false,
        }
    }

    /// The first glyph behind one that begins a cluster without this flag; the number of glyphs where there
    /// is none.
    fn next_beginning(&self, number: usize, flag: u32) -> usize {
        for next in number..self.len() {
            if next > number && self.begins(next, flag) {
                return next;
            }
        }
        self.len()
    }
}

/// What shapes parts of a text again.
pub trait ShapesParts {
    /// Shapes the text of a buffer.
    ///
    /// # Requires
    ///
    /// - `buffer.have_output ≡ false`
    ///
    /// # Errors
    ///
    /// `Err`: the clauses below say when.
    ///
    /// # Proved
    ///
    /// ```text
    /// ensures { IfErr result (λ e. e ≢ ShapeError.OtherPlan) }
    /// ```
    fn shape(&self, buffer: hb_buffer_t) -> Result<GlyphBuffer, ShapeError>;
}

/// Tests glyphs by their text. Where clusters may stand in any order, or where shaping was given up,
/// there is no test.
///
/// # Errors
///
/// `Err`: the clauses below say when.
///
/// # Proved
///
/// ```text
/// ensures { IfErr result (λ e. e ≢ ShapeError.OtherPlan) }
/// ```
pub fn verify<S: ShapesParts>(
    shaping: &S,
    text: &Original,
    glyphs: &GlyphBuffer,
) -> Result<(), ShapeError> {
    if !text.has_monotone_level() || glyphs.shaping_failed() {
        return Ok(());
    }
    let glyphs = InOrder::of(glyphs, text.direction.is_forward());
    if !are_monotone(glyphs) {
        return Err(ShapeError::Unverified(VerifyError::NotMonotone));
    }
    if !is_safe_to_break(shaping, text, glyphs)? {
        return Err(ShapeError::Unverified(VerifyError::UnsafeToBreak));
    }
    if text.flags.contains(BufferFlags::PRODUCE_UNSAFE_TO_CONCAT) {
        let characters = text.characters.as_slice();
        let cuts = cuts(characters, glyphs, glyph_flag::UNSAFE_TO_CONCAT)?;
        if !is_safe_to_concat(shaping, text, cuts.as_slice(), glyphs)? {
            return Err(ShapeError::Unverified(VerifyError::UnsafeToConcat));
        }
    }
    Ok(())
}

/// Whether clusters rise in the order of the text.
fn are_monotone(glyphs: InOrder<'_>) -> bool {
    let mut last = 0;
    for number in 0..glyphs.len() {
        if let Some((info, _)) = glyphs.at(number) {
            if info.cluster < last {
                return false;
            }
            last = info.cluster;
        }
    }
    true
}

/// The places of the text at which its glyphs may be cut: its beginning, each place where a cluster
/// begins that has not this flag, and its end.
fn cuts(
    characters: &[hb_glyph_info_t],
    glyphs: InOrder<'_>,
    flag: u32,
) -> Result<Vec<usize>, AllocError> {
    let mut cuts = Vec::new();
    cuts.push(0)?;
    let mut place = 0;
    for number in 0..glyphs.len() {
        if let Some((info, _)) = glyphs.at(number) {
            if glyphs.begins(number, flag) {
                place = first_of(characters, place, info.cluster);
                cuts.push(place)?;
            }
        }
    }
    cuts.push(characters.len())?;
    Ok(cuts)
}

/// The first character from a place on that is in this cluster, or in a later one.
fn first_of(characters: &[hb_glyph_info_t], from: usize, cluster: u32) -> usize {
    for place in from..characters.len() {
        if characters[place].cluster >= cluster {
            return place;
        }
    }
    characters.len()
}

/// Whether the parts of a text that is cut wherever this is safe have the glyphs of the whole.
fn is_safe_to_break<S: ShapesParts>(
    shaping: &S,
    text: &Original,
    glyphs: InOrder<'_>,
) -> Result<bool, ShapeError> {
    let cuts = cuts(
        text.characters.as_slice(),
        glyphs,
        glyph_flag::UNSAFE_TO_BREAK,
    )?;
    let mut compared = 0;
    for part in cuts.as_slice().windows(2) {
        if let [start, end] = part {
            if start < end {
                let buffer = part_of(text, *start, *end)?;
                let shaped = shaping.shape(buffer)?;
                if shaped.shaping_failed() {
                    return Ok(true);
                }
                let shaped = InOrder::of(&shaped, glyphs.is_forward);
                if !stands_at(shaped, 0, shaped.len(), glyphs, compared) {
                    return Ok(false);
                }
                compared = shaped.len().saturating_add(compared);
            }
        }
    }
    Ok(compared == glyphs.len())
}

/// A part of a text as a text of its own.
fn part_of(text: &Original, start: usize, end: usize) -> Result<hb_buffer_t, ShapeError> {
    let mut flags = text.flags.difference(BufferFlags::VERIFY);
    if start > 0 {
        flags = flags.difference(BufferFlags::BEGINNING_OF_TEXT);
    }
    if end < text.characters.len() {
        flags = flags.difference(BufferFlags::END_OF_TEXT);
    }
    let mut part = text.begin(start)?;
    text.add(&mut part, start, end)?;
    Ok(text.finish(part, end, flags)?)
}

/// Whether glyphs stand at a place of others, with the same clusters and positions.
fn stands_at(
    part: InOrder<'_>,
    start: usize,
    end: usize,
    glyphs: InOrder<'_>,
    place: usize,
) -> bool {
    for number in start..end {
        match (
            part.at(number),
            glyphs.at(place.saturating_add(number - start)),
        ) {
            (Some((info, position)), Some((own, own_position))) => {
                if !is_same_glyph(info, own) || is_elsewhere(position, own_position, 0) {
                    return false;
                }
            }
            _ => return false,
        }
    }
    true
}

/// Whether two glyphs are the same, and in the same cluster.
fn is_same_glyph(one: &hb_glyph_info_t, other: &hb_glyph_info_t) -> bool {
    one.glyph_id == other.glyph_id && one.cluster == other.cluster
}

/// Whether the parts of a text that is cut at these places have their glyphs also where every other
/// part is left out: the glyphs of both halves, part by part, are those of the whole.
fn is_safe_to_concat<S: ShapesParts>(
    shaping: &S,
    text: &Original,
    cuts: &[usize],
    glyphs: InOrder<'_>,
) -> Result<bool, ShapeError> {
    let even = shaped_half(shaping, text, cuts, 0)?;
    let odd = shaped_half(shaping, text, cuts, 1)?;
    let even = InOrder::of(&even, glyphs.is_forward);
    let odd = InOrder::of(&odd, glyphs.is_forward);
    Ok(are_interleaved(even, odd, glyphs))
}

/// The glyphs of every other part of a text, beginning with this one.
fn shaped_half<S: ShapesParts>(
    shaping: &S,
    text: &Original,
    cuts: &[usize],
    first: usize,
) -> Result<GlyphBuffer, ShapeError> {
    let start = cuts.get(first).copied().unwrap_or(0);
    let mut last = start;
    let mut half = text.begin(start)?;
    for (number, part) in cuts.windows(2).enumerate() {
        if let [start, end] = part {
            if number % 2 == first {
                text.add(&mut half, *start, *end)?;
                last = *end;
            }
        }
    }
    let flags = text.flags.difference(BufferFlags::VERIFY);
    let buffer = text.finish(half, last, flags)?;
    shaping.shape(buffer)
}

/// Whether the parts of two texts in turn, each up to where the next may be joined, have these glyphs.
fn are_interleaved(even: InOrder<'_>, odd: InOrder<'_>, glyphs: InOrder<'_>) -> bool {
    let (mut even_start, mut odd_start, mut compared) = (0, 0, 0usize);
    for turn in 0..glyphs.len().saturating_mul(2) {
        let is_even = turn % 2 == 0;
        let (part, start) = if is_even {
            (even, even_start)
        } else {
            (odd, odd_start)
        };
        let end = part.next_beginning(start, glyph_flag::UNSAFE_TO_CONCAT);
        if !stands_at(part, start, end, glyphs, compared) {
            return false;
        }
        compared = compared.saturating_add(end.saturating_sub(start));
        if is_even {
            even_start = end;
        } else {
            odd_start = end;
        }
    }
    compared == glyphs.len() && even_start == even.len() && odd_start == odd.len()
}
