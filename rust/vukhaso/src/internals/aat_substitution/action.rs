// Written by tools/plain_rust from crates/aat_substitution. Do not edit.

//! What a subtable with a state table does at a glyph, and what it keeps while it goes over the text.

use crate::aat_substitution::contextual::Contextual;
use crate::aat_substitution::insertion::Insertion;
use crate::aat_substitution::ligature::Ligature;
use crate::aat_substitution::rearrangement::Rearrangement;
use crate::aat_substitution::work::{Done, Work};
use crate::aat_tables::{Entry, Subtable, SubtableKind};
use crate::buffer::hb_buffer_t;
use crate::font_tables::gdef::Gdef;

/// What a subtable does, by its kind.
#[derive(Clone, Copy, Debug)]
#[allow(clippy::large_enum_variant)] // a ligature remembers its glyphs
pub(crate) enum Action<'a> {
    /// It puts glyphs in another order.
    Rearrangement(Rearrangement),
    /// It puts another glyph in the place of a glyph.
    Contextual(Contextual<'a>),
    /// It makes ligatures.
    Ligature(Ligature<'a>),
    /// It puts glyphs in.
    Insertion(Insertion<'a>),
}

impl<'a> Action<'a> {
    /// What a subtable does, before it goes over a text; `None` for one that has no state table.
    pub(crate) fn of(subtable: &Subtable<'a>, glyph_count: u16) -> Option<Self> {
        let table = subtable.table;
        match subtable.kind {
            SubtableKind::Rearrangement => Some(Action::Rearrangement(Rearrangement::new())),
            SubtableKind::Contextual => {
                Some(Action::Contextual(Contextual::new(table, glyph_count)))
            }
            SubtableKind::Ligature => Some(Action::Ligature(Ligature::new(table))),
            SubtableKind::Insertion => Some(Action::Insertion(Insertion::new(table))),
            SubtableKind::Noncontextual => None,
        }
    }

    /// Whether the glyphs stay in their list: no output is opened.
    pub(crate) fn is_in_place(&self) -> bool {
        match self {
            Action::Rearrangement(_) | Action::Contextual(_) => true,
            Action::Ligature(_) | Action::Insertion(_) => false,
        }
    }

    /// Whether an entry does something at the cursor.
    pub(crate) fn is_actionable(&self, buffer: &hb_buffer_t, entry: &Entry) -> bool {
        match self {
            Action::Rearrangement(rearrangement) => rearrangement.is_actionable(entry),
            Action::Contextual(contextual) => contextual.is_actionable(buffer, entry),
            Action::Ligature(ligature) => ligature.is_actionable(entry),
            Action::Insertion(insertion) => insertion.is_actionable(entry),
        }
    }

    /// Does what an entry says, at the cursor.
    pub(crate) fn transition(
        &mut self,
        buffer: &mut hb_buffer_t,
        entry: &Entry,
        gdef: &Gdef,
        work: &mut Work,
    ) -> Done {
        if buffer.have_output() {
            return self.put_out(buffer, entry, work);
        }
        self.change(buffer, entry, gdef, work);
        Ok(true)
    }

    /// Changes glyphs in their list.
    ///
    /// # Requires
    ///
    /// - `buffer.old.have_output ≡ false`
    fn change(&mut self, buffer: &mut hb_buffer_t, entry: &Entry, gdef: &Gdef, work: &mut Work) {
        debug_assert!(!buffer.have_output());
        match self {
            Action::Rearrangement(rearrangement) => rearrangement.obey(buffer, entry),
            Action::Contextual(contextual) => contextual.obey(buffer, entry, gdef, work),
            Action::Ligature(_) | Action::Insertion(_) => {}
        }
    }

    /// Puts glyphs out.
    ///
    /// # Requires
    ///
    /// - `buffer.old.have_output ≡ true`
    fn put_out(&mut self, buffer: &mut hb_buffer_t, entry: &Entry, work: &mut Work) -> Done {
        debug_assert!(buffer.have_output());
        match self {
            Action::Ligature(ligature) => ligature.obey(buffer, entry, work),
            Action::Insertion(insertion) => insertion.obey(buffer, entry, work),
            Action::Rearrangement(_) | Action::Contextual(_) => Ok(true),
        }
    }
}
