// Written by tools/plain_rust from crates/aat_substitution. Do not edit.

//! Subtables that make ligatures: components are pushed on a stack, and ligatures made of those on its top.

use crate::aat_substitution::work::{Done, Work};
use crate::aat_substitution::writing::{go_to, hide_current};
use crate::aat_tables::Entry;
use crate::aat_tables::lookup::DELETED_GLYPH;
use crate::buffer::hb_buffer_t;
use crate::font_tables::bytes::{tail, u16_at, u32_at};
use crate::memory::AllocError;

/// The current glyph is pushed on the stack.
const SET_COMPONENT: u16 = 0x8000;

/// A ligature is made of the glyphs on the stack.
const PERFORM_ACTION: u16 = 0x2000;

/// An action is the last one of a ligature.
const LAST: u32 = 0x8000_0000;

/// An action puts the ligature out.
const STORE: u32 = 0x4000_0000;

/// The bits of an action that hold an offset.
const OFFSET: u32 = 0x3FFF_FFFF;

/// The bit of the offset that is its sign.
const OFFSET_SIGN: u32 = 0x2000_0000;

/// So many places are kept on the stack (HarfBuzz, `HB_MAX_CONTEXT_LENGTH`).
const STACK_SIZE: usize = 64;

/// The tables of a subtable, and the stack of components.
#[derive(Clone, Copy, Debug)]
pub(crate) struct Ligature<'a> {
    actions: &'a [u8],
    components: &'a [u8],
    ligatures: &'a [u8],
    /// The places of the components; where there are more than so many, the last ones.
    places: [usize; 64],
    /// How many components there are.
    count: usize,
}

/// What an action makes of a component.
#[derive(Clone, Copy, PartialEq, Eq, Debug)]
enum Made {
    /// Nothing yet: another component follows.
    Nothing,
    /// A ligature, which the next component may still change.
    Stored,
    /// The last ligature, or nothing where a table does not hold what it should.
    Ended,
    /// The buffer refused a call for length.
    Refused,
}

impl<'a> Ligature<'a> {
    /// The tables of a subtable. No glyph is on the stack.
    pub(crate) fn new(table: &'a [u8]) -> Self {
        Ligature {
            actions: tail(table, u32_at(table, 16).unwrap_or(0) as usize),
            components: tail(table, u32_at(table, 20).unwrap_or(0) as usize),
            ligatures: tail(table, u32_at(table, 24).unwrap_or(0) as usize),
            places: [0; 64],
            count: 0,
        }
    }

    /// Whether an entry makes a ligature.
    pub(crate) fn is_actionable(&self, entry: &Entry) -> bool {
        entry.flags & PERFORM_ACTION != 0
    }

    /// The place of a component.
    fn place(&self, component: usize) -> usize {
        self.places[component % STACK_SIZE]
    }

    /// Does what an entry says, at the cursor.
    ///
    /// # Requires
    ///
    /// - `buffer.old.have_output ≡ true`
    pub(crate) fn obey(
        &mut self,
        buffer: &mut hb_buffer_t,
        entry: &Entry,
        work: &mut Work,
    ) -> Done {
        debug_assert!(buffer.have_output());
        if entry.flags & SET_COMPONENT != 0 {
            self.push(buffer.out_len());
        }
        if !self.is_actionable(entry) || self.count == 0 || buffer.lookahead_len() == 0 {
            return Ok(true);
        }
        let end = buffer.out_len();
        if !self.perform(buffer, entry.data[0], work)? {
            return Ok(false);
        }
        go_to(buffer, end, work)
    }

    /// Pushes a place on the stack, once where it is there already.
    fn push(&mut self, place: usize) {
        if self.count > 0 && self.place(self.count - 1) == place {
            self.count -= 1;
        }
        self.places[self.count % STACK_SIZE] = place;
        self.count = self.count.saturating_add(1);
    }

    /// Goes down the stack with the actions from one on.
    ///
    /// # Requires
    ///
    /// - `buffer.old.have_output ≡ true`
    fn perform(&mut self, buffer: &mut hb_buffer_t, first: u16, work: &mut Work) -> Done {
        debug_assert!(buffer.have_output());
        let mut ligature = 0;
        let count = self.count;
        for turn in 0..count {
            let action = usize::from(first).saturating_add(turn);
            match self.take(buffer, count - 1 - turn, action, &mut ligature, work)? {
                Made::Nothing | Made::Stored => {}
                Made::Ended => return Ok(true),
                Made::Refused => return Ok(false),
            }
        }
        self.count = 0;
        Ok(true)
    }

    /// Takes a component into the ligature by an action.
    ///
    /// # Requires
    ///
    /// - `buffer.old.have_output ≡ true`
    fn take(
        &mut self,
        buffer: &mut hb_buffer_t,
        component: usize,
        action: usize,
        ligature: &mut u32,
        work: &mut Work,
    ) -> Result<Made, AllocError> {
        debug_assert!(buffer.have_output());
        if !go_to(buffer, self.place(component), work)? {
            return Ok(Made::Refused);
        }
        let Some(action) = u32_at(self.actions, action.saturating_mul(4)) else {
            return Ok(Made::Ended);
        };
        let Some(number) = self.number_of(buffer, action) else {
            return Ok(Made::Ended);
        };
        *ligature = ligature.wrapping_add(u32::from(number));
        if action & (STORE | LAST) == 0 {
            return Ok(Made::Nothing);
        }
        let Some(glyph) = u16_at(self.ligatures, *ligature as usize * 2) else {
            return Ok(Made::Ended);
        };
        if !self.store(buffer, component, glyph, work)? {
            return Ok(Made::Refused);
        }
        Ok(if action & LAST == 0 {
            Made::Stored
        } else {
            Made::Ended
        })
    }

    /// The number of the current glyph as a component.
    fn number_of(&self, buffer: &hb_buffer_t, action: u32) -> Option<u16> {
        if buffer.lookahead_len() == 0 {
            return None;
        }
        let place = component_of(buffer.cur(0).glyph_id, action);
        u16_at(self.components, place as usize * 2)
    }

    /// Puts a ligature in the place of the current glyph, which is its first component, and deletes the
    /// components behind it.
    ///
    /// # Requires
    ///
    /// - `buffer.old.have_output ≡ true`
    fn store(
        &mut self,
        buffer: &mut hb_buffer_t,
        first: usize,
        glyph: u16,
        work: &mut Work,
    ) -> Done {
        debug_assert!(buffer.have_output());
        if !put(buffer, glyph)? {
            return Ok(false);
        }
        let last = self.count.saturating_sub(1);
        let end = self.place(last).saturating_add(1);
        for turn in 0..last.saturating_sub(first) {
            if !delete_at(buffer, self.place(last.saturating_sub(turn)), work)? {
                return Ok(false);
            }
        }
        self.count = first.saturating_add(1);
        if !go_to(buffer, end, work)? {
            return Ok(false);
        }
        merge(buffer, self.place(first));
        Ok(true)
    }
}

/// The number of a glyph among components, by an action, whose offset may be negative.
fn component_of(glyph: u32, action: u32) -> u32 {
    let offset = action & OFFSET;
    if offset & OFFSET_SIGN != 0 {
        glyph.wrapping_add(offset | !OFFSET)
    } else {
        glyph.wrapping_add(offset)
    }
}

/// Puts a glyph in the place of the current one.
///
/// # Requires
///
/// - `buffer.old.have_output ≡ true`
fn put(buffer: &mut hb_buffer_t, glyph: u16) -> Done {
    debug_assert!(buffer.have_output());
    if buffer.lookahead_len() == 0 {
        return Ok(true);
    }
    buffer.replace_glyph(u32::from(glyph))
}

/// Puts a deleted glyph in the place of that at a place of both sides.
///
/// # Requires
///
/// - `buffer.old.have_output ≡ true`
fn delete_at(buffer: &mut hb_buffer_t, place: usize, work: &mut Work) -> Done {
    debug_assert!(buffer.have_output());
    if !go_to(buffer, place, work)? {
        return Ok(false);
    }
    delete(buffer)
}

/// Puts a deleted glyph in the place of the current one.
///
/// # Requires
///
/// - `buffer.old.have_output ≡ true`
fn delete(buffer: &mut hb_buffer_t) -> Done {
    debug_assert!(buffer.have_output());
    if buffer.lookahead_len() == 0 {
        return Ok(true);
    }
    hide_current(buffer);
    buffer.replace_glyph(u32::from(DELETED_GLYPH))
}

/// Puts the glyphs from a place on that were put out into one cluster.
///
/// # Requires
///
/// - `buffer.old.have_output ≡ true`
fn merge(buffer: &mut hb_buffer_t, start: usize) {
    debug_assert!(buffer.have_output());
    let end = buffer.out_len();
    if start <= end {
        buffer.merge_out_clusters(start, end);
    }
}
