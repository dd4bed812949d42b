// Written by tools/plain_rust from crates/aat_substitution. Do not edit.

//! Subtables that put glyphs in, before or behind others.

use crate::aat_substitution::setting::DONT_ADVANCE;
use crate::aat_substitution::work::{Done, Work};
use crate::aat_substitution::writing::go_to;
use crate::aat_tables::Entry;
use crate::buffer::hb_buffer_t;
use crate::font_tables::bytes::{part, tail, u16_at, u32_at};

/// The current glyph is marked.
const SET_MARK: u16 = 0x8000;

/// Glyphs are put in before the current glyph, and else behind it.
const CURRENT_BEFORE: u16 = 0x0800;

/// Glyphs are put in before the marked glyph, and else behind it.
const MARKED_BEFORE: u16 = 0x0400;

/// The bits of how many glyphs are put in beside the current glyph, which begin with this one.
const CURRENT_COUNT: u16 = 0x03E0;

/// The lowest of these bits.
const CURRENT_COUNT_UNIT: u16 = 0x0020;

/// The bits of how many glyphs are put in beside the marked glyph.
const MARKED_COUNT: u16 = 0x001F;

/// No glyphs.
const NONE: u16 = 0xFFFF;

/// Where a subtable says where its list of glyphs is.
const GLYPHS: usize = 16;

/// Glyphs that are put in.
#[derive(Clone, Copy, Debug)]
struct Inserted<'a> {
    /// The glyphs, two bytes each.
    glyphs: &'a [u8],
    /// How many there are: at most 31.
    count: u16,
    /// Whether they stand before a glyph.
    is_before: bool,
}

impl Inserted<'_> {
    /// The glyph at a place of the list.
    fn glyph_at(&self, place: u16) -> u32 {
        u32::from(u16_at(self.glyphs, 2 * usize::from(place)).unwrap_or(0))
    }
}

/// The glyphs of a subtable, and the place of the marked glyph.
#[derive(Clone, Copy, Debug)]
pub(crate) struct Insertion<'a> {
    glyphs: &'a [u8],
    mark: usize,
}

impl<'a> Insertion<'a> {
    /// The glyphs of a subtable. The first glyph is marked.
    pub(crate) fn new(table: &'a [u8]) -> Self {
        Insertion {
            glyphs: tail(table, u32_at(table, GLYPHS).unwrap_or(0) as usize),
            mark: 0,
        }
    }

    /// Whether an entry puts glyphs in.
    pub(crate) fn is_actionable(&self, entry: &Entry) -> bool {
        entry.flags & (CURRENT_COUNT | MARKED_COUNT) != 0
            && (entry.data[0] != NONE || entry.data[1] != NONE)
    }

    /// So many glyphs from one on; none where the list does not hold them.
    fn inserted(&self, first: u16, count: u16, is_before: bool) -> Inserted<'a> {
        let glyphs = part(self.glyphs, 2 * usize::from(first), 2 * usize::from(count));
        let is_whole = glyphs.len() == 2 * usize::from(count);
        Inserted {
            glyphs,
            count: if is_whole { count } else { 0 },
            is_before,
        }
    }

    /// Does what an entry says, at the cursor.
    ///
    /// # Requires
    ///
    /// - `buffer.old.have_output ≡ true`
    pub(crate) fn obey(
        &mut self,
        buffer: &mut hb_buffer_t,
        entry: &Entry,
        work: &mut Work,
    ) -> Done {
        debug_assert!(buffer.have_output());
        let mark = buffer.out_len();
        if entry.data[1] != NONE {
            let count = entry.flags & MARKED_COUNT;
            if !work.insert(count) {
                return Ok(true);
            }
            let inserted = self.inserted(entry.data[1], count, entry.flags & MARKED_BEFORE != 0);
            if !insert_at(buffer, self.mark, &inserted, work)? {
                return Ok(false);
            }
        }
        if entry.flags & SET_MARK != 0 {
            self.mark = mark;
        }
        self.insert_at_cursor(buffer, entry, work)
    }

    /// Puts the glyphs in that an entry has for the current glyph. Where the next state is at the same
    /// glyph, it sees them.
    ///
    /// # Requires
    ///
    /// - `buffer.old.have_output ≡ true`
    fn insert_at_cursor(&self, buffer: &mut hb_buffer_t, entry: &Entry, work: &mut Work) -> Done {
        debug_assert!(buffer.have_output());
        let count = entry.flags / CURRENT_COUNT_UNIT % 32;
        if entry.data[0] == NONE || !work.insert(count) {
            return Ok(true);
        }
        let inserted = self.inserted(entry.data[0], count, entry.flags & CURRENT_BEFORE != 0);
        let end = buffer.out_len();
        if !insert(buffer, &inserted)? {
            return Ok(false);
        }
        let behind = if entry.flags & DONT_ADVANCE != 0 {
            0
        } else {
            usize::from(inserted.count)
        };
        go_to(buffer, end.saturating_add(behind), work)
    }
}

/// Puts glyphs in beside the marked glyph, and goes back to the current one.
///
/// # Requires
///
/// - `buffer.old.have_output ≡ true`
fn insert_at(buffer: &mut hb_buffer_t, mark: usize, inserted: &Inserted, work: &mut Work) -> Done {
    debug_assert!(buffer.have_output());
    let end = buffer.out_len();
    if !go_to(buffer, mark, work)? || !insert(buffer, inserted)? {
        return Ok(false);
    }
    add_glyphs(work, inserted);
    let behind = end.saturating_add(usize::from(inserted.count));
    if !go_to(buffer, behind, work)? {
        return Ok(false);
    }
    mark_break(buffer, mark);
    Ok(true)
}

/// Says that the text may have these glyphs.
fn add_glyphs(work: &mut Work, inserted: &Inserted) {
    for number in 0..inserted.count {
        if let Some(glyph) = u16_at(inserted.glyphs, 2 * usize::from(number)) {
            work.digest.add(u32::from(glyph));
        }
    }
}

/// Marks the glyphs from a place of the out side up to the current one as unsafe to break.
///
/// # Requires
///
/// - `buffer.old.have_output ≡ true`
fn mark_break(buffer: &mut hb_buffer_t, from: usize) {
    debug_assert!(buffer.have_output());
    let end = buffer.idx().saturating_add(1);
    if from <= buffer.out_len() {
        buffer.unsafe_to_break_from_outbuffer(Some(from), Some(end));
    }
}

/// Puts glyphs in beside the current glyph, and in its cluster; at the end of a text, in that of the
/// last glyph. The cursor is behind them.
///
/// # Requires
///
/// - `buffer.old.have_output ≡ true`
fn insert(buffer: &mut hb_buffer_t, inserted: &Inserted) -> Done {
    debug_assert!(buffer.have_output());
    if buffer.lookahead_len() == 0 || inserted.is_before {
        return insert_before(buffer, inserted);
    }
    insert_behind(buffer, inserted)
}

/// Puts glyphs out before the current glyph.
///
/// # Requires
///
/// - `buffer.old.have_output ≡ true`
fn insert_before(buffer: &mut hb_buffer_t, inserted: &Inserted) -> Done {
    debug_assert!(buffer.have_output());
    for place in 0..inserted.count {
        if !put_one(buffer, inserted, place)? {
            return Ok(false);
        }
    }
    Ok(true)
}

/// Puts a glyph of the list out.
///
/// # Requires
///
/// - `buffer.old.have_output ≡ true`
fn put_one(buffer: &mut hb_buffer_t, inserted: &Inserted, place: u16) -> Done {
    debug_assert!(buffer.have_output());
    buffer.output_glyph(inserted.glyph_at(place))
}

/// Puts the current glyph out, and glyphs behind it.
///
/// # Requires
///
/// - `opened: buffer.old.have_output ≡ true`
/// - `glyph: 0 < length buffer.old.input`
fn insert_behind(buffer: &mut hb_buffer_t, inserted: &Inserted) -> Done {
    debug_assert!(buffer.have_output());
    debug_assert!(!buffer.info().is_empty());
    let ids = glyphs_behind(buffer.cur(0).glyph_id, inserted);
    let count = usize::from(inserted.count).min(31);
    buffer.replace_glyphs(1, count + 1, &ids)
}

/// A glyph, and those that are put in behind it.
fn glyphs_behind(glyph: u32, inserted: &Inserted) -> [u32; 32] {
    let mut glyphs = [glyph; 32];
    for place in 0..inserted.count.min(31) {
        glyphs[usize::from(place) + 1] = inserted.glyph_at(place);
    }
    glyphs
}
