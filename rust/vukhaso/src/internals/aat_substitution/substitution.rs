// Written by tools/plain_rust from crates/aat_substitution. Do not edit.

//! The chains of a table, applied to a text.

use crate::aat_substitution::action::Action;
use crate::aat_substitution::chain_flags::ChainFlags;
use crate::aat_substitution::noncontextual::replace_all;
use crate::aat_substitution::setting::{Reach, Setting};
use crate::aat_substitution::work::{Done, Work};
use crate::aat_substitution::writing::fail;
use crate::aat_tables::metamorphosis::SubtableCoverage;
use crate::aat_tables::{Lookup, Metamorphosis, StateTable};
use crate::buffer::{Direction, hb_buffer_t};
use crate::font_tables::gdef::Gdef;
use crate::memory::AllocError;

/// The chains of a font, and how they are applied.
#[derive(Clone, Copy, Debug)]
pub struct Substitution<'a> {
    /// The chains.
    pub table: &'a Metamorphosis<'a>,
    /// Their flags in the parts of the text.
    pub flags: &'a ChainFlags,
    /// The classes of the font's glyphs.
    pub gdef: &'a Gdef<'a>,
}

/// Applies the subtables of all chains whose flags are on. Where the budget is spent, the rest of the
/// text stays as it is, and `buffer.shaping_failed` says so.
///
/// Deleted glyphs stay as glyphs with the number 0xFFFF.
///
/// # Requires
///
/// - `buffer.old.have_output ≡ false`
///
/// # Errors
///
/// `Ok(false)` where the buffer refused a call for length: then an output may be open, and the text
/// turned. `Err(AllocError)` where memory ran out.
///
/// # Proved
///
/// ```text
/// ensures left { IsLeftClosed result buffer.new }
/// ensures refusal { IsRefusal false result buffer.new }
/// ensures keeps { IfOk result (λ done. done ≡ true → KeepsClusters buffer.old buffer.new) }
/// ```
#[inline]
pub fn substitute(
    buffer: &mut hb_buffer_t,
    substitution: &Substitution,
) -> Result<bool, AllocError> {
    debug_assert!(!buffer.have_output());
    let mut work = Work::new(buffer.max_ops, buffer.info());
    mark_concat(buffer);
    for chain in 0..substitution.table.chains.len() {
        if !substitution.apply_chain(buffer, chain, &mut work)? {
            return Ok(false);
        }
    }
    buffer.move_to(0)
}

/// Marks the whole text as unsafe to concatenate.
///
/// # Requires
///
/// - `buffer.old.have_output ≡ false`
fn mark_concat(buffer: &mut hb_buffer_t) {
    debug_assert!(!buffer.have_output());
    buffer.unsafe_to_concat(None, None);
}

impl Substitution<'_> {
    /// Applies the subtables of a chain whose flags are on.
    ///
    /// # Requires
    ///
    /// - `buffer.old.have_output ≡ false`
    fn apply_chain(&self, buffer: &mut hb_buffer_t, chain: usize, work: &mut Work) -> Done {
        debug_assert!(!buffer.have_output());
        let Some(row) = self.table.chains.get(chain) else {
            return Ok(true);
        };
        for subtable in self.table.subtables_of(row) {
            let reach = Reach {
                flags: self.flags,
                chain,
                subtable,
            };
            if self.flags.has_any(chain, subtable.flags)
                && is_for(subtable.coverage, buffer.direction)
                && !self.apply_subtable(buffer, &reach, work)?
            {
                return Ok(false);
            }
        }
        Ok(true)
    }

    /// Applies a subtable in its order.
    ///
    /// # Requires
    ///
    /// - `buffer.old.have_output ≡ false`
    fn apply_subtable(&self, buffer: &mut hb_buffer_t, reach: &Reach, work: &mut Work) -> Done {
        debug_assert!(!buffer.have_output());
        if !is_reversed(reach.subtable.coverage, buffer.direction) {
            return self.apply(buffer, reach, work);
        }
        buffer.reverse();
        if !self.apply(buffer, reach, work)? {
            return Ok(false);
        }
        buffer.reverse();
        Ok(true)
    }

    /// Applies a subtable from the first glyph on.
    ///
    /// # Requires
    ///
    /// - `buffer.old.have_output ≡ false`
    fn apply(&self, buffer: &mut hb_buffer_t, reach: &Reach, work: &mut Work) -> Done {
        debug_assert!(!buffer.have_output());
        let subtable = reach.subtable;
        let glyph_count = self.table.glyph_count;
        if !work.budget.pay(1) {
            fail(buffer);
            return Ok(true);
        }
        let Some(mut action) = Action::of(subtable, glyph_count) else {
            let lookup = Lookup::new(subtable.table, glyph_count);
            replace_all(buffer, &lookup, reach, self.gdef, work);
            return Ok(true);
        };
        let data_count = subtable.kind.data_count();
        let Some(machine) = StateTable::new(subtable.table, glyph_count, data_count) else {
            return Ok(true);
        };
        let setting = Setting {
            machine,
            reach: *reach,
            gdef: self.gdef,
        };
        if setting.passes_unknown_glyphs(buffer, &action) && !work.digest.meets(&subtable.digest) {
            return Ok(true);
        }
        setting.drive(buffer, &mut action, work)
    }
}

/// Whether a subtable is for lines that run in a direction.
fn is_for(coverage: SubtableCoverage, direction: Direction) -> bool {
    coverage.all_directions || coverage.is_vertical == direction.is_vertical()
}

/// Whether a subtable goes over the glyphs from the last one on: they stand in the order of the
/// characters.
fn is_reversed(coverage: SubtableCoverage, direction: Direction) -> bool {
    if coverage.is_logical {
        coverage.is_backwards
    } else {
        coverage.is_backwards != direction.is_backward()
    }
}
