// Written by tools/plain_rust from crates/script_syllables. Do not edit.

//! How the first syllable of a list is found.

use crate::glyph::hb_glyph_info_t;
use crate::script_syllables::item::{category_byte, is_passed_over};
use crate::script_syllables::machine::Machine;
use crate::script_syllables::syllables::NO_KIND;

/// How the syllables of a script are found.
#[derive(Clone, Copy, Debug)]
pub struct Grammar<'a> {
    /// The machine that reads them.
    pub machine: Machine<'a>,
    /// The kind of syllables that are broken: they have no base.
    pub broken: u8,
    /// Whether items that are marked are passed over, as the universal shaper marks them.
    pub passes_over: bool,
}

/// A syllable at the start of a list.
#[derive(Clone, Copy, PartialEq, Eq, Debug)]
pub(crate) struct Syllable {
    /// How many items it has.
    pub length: usize,
    /// The number of its kind.
    pub kind: u8,
}

impl<'a> Grammar<'a> {
    /// The longest syllable that a list begins with, and the items behind it that are passed over.
    ///
    /// Each item that was read keeps the state in which it was, as the number of its syllable. Behind the
    /// longest one nothing ended in that state, so a later reading that comes by in the same one stops
    /// there: a text is not read again for each of its items.
    pub(crate) fn first_syllable(&self, infos: &mut [hb_glyph_info_t]) -> Syllable {
        let found = self.longest(infos);
        Syllable {
            length: self.behind_passed(infos, found.length),
            ..found
        }
    }

    /// The place behind the items that are passed over from a place on.
    fn behind_passed(&self, infos: &[hb_glyph_info_t], start: usize) -> usize {
        match infos.get(start..) {
            Some(behind) => start + self.passed_count(behind),
            None => start,
        }
    }

    /// How many of the first items are passed over.
    pub(crate) fn passed_count(&self, infos: &[hb_glyph_info_t]) -> usize {
        if self.passes_over {
            passed_items(infos)
        } else {
            0
        }
    }

    /// The longest syllable that a list begins with. One that is none of the grammar has one character.
    fn longest(&self, infos: &mut [hb_glyph_info_t]) -> Syllable {
        let mut found = Syllable {
            length: 1,
            kind: NO_KIND,
        };
        let mut state = 1;
        for place in 0..infos.len() {
            if self.passes_over && is_passed_over(&infos[place]) {
                continue;
            }
            state = self.machine.next_state(state, category_byte(&infos[place]));
            if state == 0 || state == infos[place].syllable() {
                break;
            }
            infos[place].set_syllable(state);
            if let Some(kind) = self.machine.kind_read(state) {
                found = Syllable {
                    length: place.saturating_add(1),
                    kind,
                };
            }
        }
        found
    }
}

/// How many of the first items are marked.
fn passed_items(infos: &[hb_glyph_info_t]) -> usize {
    for place in 0..infos.len() {
        if !is_passed_over(&infos[place]) {
            return place;
        }
    }
    infos.len()
}
