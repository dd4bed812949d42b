// Written by tools/plain_rust from crates/ot_gpos. Do not edit.

//! Contexts: which rule fits at a glyph (HarfBuzz, `ContextPos`, `ChainContextPos`).

use crate::glyph::hb_glyph_info_t;
use crate::ot_contexts::context::{Fit, fitting_rule};
use crate::ot_gpos::turn::Turn;
use crate::ot_layout::search::{ApplyContext, Reach, Search};
use crate::ot_layout::skipping_iterator::SkippingIterator;
use crate::ot_lookups::lookup_list::LookupList;

/// The rule that fits at the glyph; how far rules that do not fit have looked stands in the search. The
/// places of the rule's glyphs are counted from the glyph. No lookup is applied, so that as many may be
/// as before.
///
/// # Requires
///
/// - `within: turn.now.place < length glyphs.now`
/// - `next: IsNextOf list.now.coverages.items turn.now.subtable.now`
pub(crate) fn fit_at<'a>(
    glyphs: &[hb_glyph_info_t],
    list: &'a LookupList<'a>,
    turn: &Turn<'a>,
    context: &SkippingIterator<'a>,
    search: &mut Search,
) -> Option<Fit<'a>> {
    search.reach = Reach::none(turn.place);
    let nested = search.budget.nested;
    let ctx = ApplyContext {
        out: &glyphs[..turn.place],
        input: &glyphs[turn.place..],
        iterator: turn.iterator,
        context: *context,
        syllable: 0,
        is_level: true,
    };
    let found = fitting_rule(list, turn.subtable, turn.index, &ctx, search);
    search.budget.nested = nested;
    found
}
