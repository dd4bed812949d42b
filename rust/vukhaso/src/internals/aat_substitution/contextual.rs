// Written by tools/plain_rust from crates/aat_substitution. Do not edit.

//! Subtables that put another glyph in the place of a glyph beside others.

use crate::aat_substitution::work::Work;
use crate::aat_substitution::writing::replace_at;
use crate::aat_tables::{Entry, Lookup};
use crate::buffer::hb_buffer_t;
use crate::font_tables::bytes::{tail, u32_at};
use crate::font_tables::gdef::Gdef;

/// The current glyph is marked.
const SET_MARK: u16 = 0x8000;

/// No lookup.
const NONE: u16 = 0xFFFF;

/// Where a subtable says where its list of lookups is.
const LOOKUPS: usize = 16;

/// The lookups of a subtable, and the glyph that is marked.
#[derive(Clone, Copy, Debug)]
pub(crate) struct Contextual<'a> {
    /// The list of lookups: where each is, from the start of the list.
    lookups: &'a [u8],
    glyph_count: u16,
    mark: Option<usize>,
}

impl<'a> Contextual<'a> {
    /// The lookups of a subtable, of a font with so many glyphs. No glyph is marked.
    pub(crate) fn new(table: &'a [u8], glyph_count: u16) -> Self {
        let offset = u32_at(table, LOOKUPS).unwrap_or(0);
        Contextual {
            lookups: tail(table, offset as usize),
            glyph_count,
            mark: None,
        }
    }

    /// Whether an entry may put glyphs in the place of others.
    pub(crate) fn is_actionable(&self, buffer: &hb_buffer_t, entry: &Entry) -> bool {
        if buffer.lookahead_len() == 0 && self.mark.is_none() {
            return false;
        }
        entry.data[0] != NONE || entry.data[1] != NONE
    }

    /// Does what an entry says, at the cursor. At the end of a text nothing is done unless a glyph is
    /// marked.
    ///
    /// # Requires
    ///
    /// - `buffer.old.have_output ≡ false`
    pub(crate) fn obey(
        &mut self,
        buffer: &mut hb_buffer_t,
        entry: &Entry,
        gdef: &Gdef,
        work: &mut Work,
    ) {
        debug_assert!(!buffer.have_output());
        let at = buffer.idx();
        if at >= buffer.len() && self.mark.is_none() {
            return;
        }
        let mark = self.mark.unwrap_or(0);
        if let Some(glyph) = self.replacement(buffer, entry.data[0], mark) {
            mark_break(buffer, mark, at.saturating_add(1));
            replace_at(buffer, mark, glyph, gdef);
            work.digest.add(u32::from(glyph));
        }
        let current = at.min(buffer.len().saturating_sub(1));
        if let Some(glyph) = self.replacement(buffer, entry.data[1], current) {
            replace_at(buffer, current, glyph, gdef);
            work.digest.add(u32::from(glyph));
        }
        if entry.flags & SET_MARK != 0 {
            self.mark = Some(at);
        }
    }

    /// The glyph that a lookup puts in the place of that at a place.
    fn replacement(&self, buffer: &hb_buffer_t, lookup: u16, place: usize) -> Option<u16> {
        if lookup == NONE {
            return None;
        }
        let glyph = u16::try_from(buffer.info().get(place)?.glyph_id).ok()?;
        let offset = u32_at(self.lookups, 4 * usize::from(lookup))?;
        Lookup::new(tail(self.lookups, offset as usize), self.glyph_count).value(glyph)
    }
}

/// Marks the glyphs of a range as unsafe to break.
///
/// # Requires
///
/// - `buffer.old.have_output ≡ false`
fn mark_break(buffer: &mut hb_buffer_t, from: usize, to: usize) {
    debug_assert!(!buffer.have_output());
    let to = to.min(buffer.len());
    if from <= to {
        buffer.unsafe_to_break(Some(from), Some(to));
    }
}
