// Written by tools/plain_rust from crates/aat_substitution. Do not edit.

//! The walk of a state table over a text: HarfBuzz's `StateTableDriver`.

use crate::aat_substitution::action::Action;
use crate::aat_substitution::setting::{DONT_ADVANCE, Setting};
use crate::aat_substitution::work::{Done, Work};
use crate::aat_substitution::writing::fail;
use crate::aat_tables::Entry;
use crate::aat_tables::state_table::{END_OF_TEXT, OUT_OF_BOUNDS, START_OF_TEXT};
use crate::buffer::hb_buffer_t;
use crate::memory::AllocError;

/// Where a walk is.
#[derive(Clone, Copy, PartialEq, Eq, Debug)]
struct Place {
    /// The state of the table.
    state: u16,
    /// The part of the text.
    part: usize,
}

/// What became of a step.
#[derive(Clone, Copy, PartialEq, Eq, Debug)]
enum Step {
    /// The walk goes on.
    On(Place),
    /// It is at its end.
    End,
    /// The buffer refused a call for length.
    Refused,
}

impl Setting<'_> {
    /// Whether a text in which the table knows no glyph stays as it is: the table does nothing at a glyph
    /// that it does not know, and stays in its first state.
    pub(crate) fn passes_unknown_glyphs(&self, buffer: &hb_buffer_t, action: &Action) -> bool {
        match self.machine.entry(START_OF_TEXT, OUT_OF_BOUNDS) {
            Some(entry) => {
                !action.is_actionable(buffer, &entry) && entry.new_state == START_OF_TEXT
            }
            None => true,
        }
    }

    /// Goes over a text from its start. Where the buffer refused a call, an output may still be open.
    ///
    /// # Requires
    ///
    /// - `buffer.old.have_output ≡ false`
    pub(crate) fn drive(
        &self,
        buffer: &mut hb_buffer_t,
        action: &mut Action,
        work: &mut Work,
    ) -> Done {
        debug_assert!(!buffer.have_output());
        if action.is_in_place() {
            return self.drive_in_place(buffer, action, work);
        }
        buffer.clear_output();
        if !self.walk(buffer, action, work)? {
            return Ok(false);
        }
        buffer.sync()
    }

    /// Goes over a text whose glyphs stay in their list.
    ///
    /// # Requires
    ///
    /// - `buffer.old.have_output ≡ false`
    fn drive_in_place(
        &self,
        buffer: &mut hb_buffer_t,
        action: &mut Action,
        work: &mut Work,
    ) -> Done {
        debug_assert!(!buffer.have_output());
        if !buffer.move_to(0)? {
            return Ok(false);
        }
        self.walk(buffer, action, work)
    }

    /// Goes over a text from the cursor on, step by step.
    fn walk(&self, buffer: &mut hb_buffer_t, action: &mut Action, work: &mut Work) -> Done {
        let mut place = Place {
            state: START_OF_TEXT,
            part: 0,
        };
        for _turn in 0..work.budget.steps {
            match self.step(buffer, action, place, work)? {
                Step::On(next) => place = next,
                Step::End => return Ok(true),
                Step::Refused => return Ok(false),
            }
            if !work.budget.pay(1) {
                break;
            }
        }
        fail(buffer);
        Ok(true)
    }

    /// A step of the walk.
    fn step(
        &self,
        buffer: &mut hb_buffer_t,
        action: &mut Action,
        place: Place,
        work: &mut Work,
    ) -> Result<Step, AllocError> {
        let part = self.part_at(buffer, place.part);
        if self.reach.is_parted() && !self.reach.reaches(part) {
            return advance(
                buffer,
                Place {
                    state: START_OF_TEXT,
                    part,
                },
            );
        }
        let class = self.class_at(buffer);
        let Some(entry) = self.machine.entry(place.state, class) else {
            return Ok(Step::End);
        };
        if !self.is_safe_to_break(buffer, action, place.state, class, &entry) {
            mark_break(buffer);
        }
        if !action.transition(buffer, &entry, self.gdef, work)? {
            return Ok(Step::Refused);
        }
        let next = Place {
            state: entry.new_state,
            part,
        };
        if entry.flags & DONT_ADVANCE != 0 && buffer.lookahead_len() > 0 && work.budget.nest() {
            return Ok(Step::On(next));
        }
        advance(buffer, next)
    }

    /// The part of the text that the current glyph is in, or at its end the last glyph.
    fn part_at(&self, buffer: &hb_buffer_t, before: usize) -> usize {
        if self.reach.is_parted() && buffer.lookahead_len() > 0 {
            self.reach.flags.part_of(buffer.cur(0).cluster)
        } else {
            before
        }
    }

    /// The class of the current glyph, or of the end of the text.
    fn class_at(&self, buffer: &hb_buffer_t) -> u16 {
        if buffer.lookahead_len() > 0 {
            self.machine.class(buffer.cur(0).glyph_id)
        } else {
            END_OF_TEXT
        }
    }

    /// Whether the text may be broken before the current glyph: nothing is done there, nor would be at the
    /// end of a text, and what follows is the same from the first state on.
    fn is_safe_to_break(
        &self,
        buffer: &hb_buffer_t,
        action: &Action,
        state: u16,
        class: u16,
        entry: &Entry,
    ) -> bool {
        if action.is_actionable(buffer, entry) {
            return false;
        }
        let stays = entry.flags & DONT_ADVANCE;
        let begins = state == START_OF_TEXT
            || stays != 0 && entry.new_state == START_OF_TEXT
            || match self.machine.entry(START_OF_TEXT, class) {
                Some(other) => {
                    !action.is_actionable(buffer, &other)
                        && other.new_state == entry.new_state
                        && other.flags & DONT_ADVANCE == stays
                }
                None => false,
            };
        begins
            && match self.machine.entry(state, END_OF_TEXT) {
                Some(end) => !action.is_actionable(buffer, &end),
                None => true,
            }
    }
}

/// Marks the current glyph and the one before it as unsafe to break, where there are both.
fn mark_break(buffer: &mut hb_buffer_t) {
    let before = buffer.backtrack_len();
    if before > 0 && buffer.lookahead_len() > 0 {
        let end = buffer.idx().saturating_add(1);
        buffer.unsafe_to_break_from_outbuffer(Some(before - 1), Some(end));
    }
}

/// Goes to the next glyph, if there is one.
fn advance(buffer: &mut hb_buffer_t, next: Place) -> Result<Step, AllocError> {
    if buffer.lookahead_len() == 0 {
        return Ok(Step::End);
    }
    if !buffer.next_glyph()? {
        return Ok(Step::Refused);
    }
    Ok(Step::On(next))
}
