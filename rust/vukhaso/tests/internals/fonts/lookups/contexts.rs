//! Which rule of a chained context is taken at a glyph.

use crate::fonts::bytes::bytes_of;
use crate::fonts::lookups::{JOINER, NON_JOINER, OPTIONS, fill, list_of};
use vukhaso::internals::glyph::hb_glyph_info_t;
use vukhaso::internals::ot_contexts::context::fitting_rule;
use vukhaso::internals::ot_layout::{ApplyContext, Budget, Search, SkippingIterator};
use vukhaso::internals::ot_lookups::LookupList;
use vukhaso::memory::AllocError;

/// A table `GSUB` with one lookup, a chained context of glyphs, for the glyph 10. Its four rules ask for 11 behind it, for 12, for 13 as
/// a second glyph, and for 11 again; each applies the lookup of its own number.
const FOUR_RULES: &[u16] = &[
    1, 0, 0, 0, 10, 1, 4, 6, 0, 1, 8, 1, 8, 1, 14, 1, 1, 10, 4, 10, 24, 38, 52, 0, 1, 1, 11, 1, 0,
    1, 0, 1, 1, 12, 1, 0, 2, 0, 2, 13, 0, 1, 0, 3, 0, 1, 1, 11, 1, 0, 4,
];

/// The same with a fifth rule, which asks for 14 behind the glyph.
const FIVE_RULES: &[u16] = &[
    1, 0, 0, 0, 10, 1, 4, 6, 0, 1, 8, 1, 8, 1, 14, 1, 1, 10, 5, 12, 26, 40, 54, 68, 0, 1, 1, 11, 1,
    0, 1, 0, 1, 1, 12, 1, 0, 2, 0, 2, 13, 0, 1, 0, 3, 0, 1, 1, 11, 1, 0, 4, 0, 1, 1, 14, 1, 0, 5,
];

/// A chained context of classes, for the glyph 10 of class 1. Its two rules ask for class 2 behind it, which is that of 12, and for
/// class 1, which is that of 11 and 13.
const CLASSES: &[u16] = &[
    1, 0, 0, 0, 10, 1, 4, 6, 0, 1, 8, 2, 16, 0, 22, 30, 2, 0, 42, 1, 1, 10, 1, 10, 1, 1, 1, 11, 3,
    1, 2, 1, 2, 6, 20, 0, 1, 1, 2, 1, 0, 1, 0, 1, 1, 1, 1, 0, 2,
];

/// The lookup that the rule applies which is taken at the first glyph.
fn rule_at(list: &LookupList, ids: &[u32]) -> Option<u16> {
    let mut glyphs = [hb_glyph_info_t::default(); 4];
    fill(&mut glyphs, ids);
    let lookup = list.lookup(0)?;
    let subtable = list.subtables_of(lookup).first()?;
    let ctx = ApplyContext {
        out: &[],
        input: &glyphs[..ids.len().min(4)],
        iterator: SkippingIterator::over_input(lookup.lookup_props, &OPTIONS, false),
        context: SkippingIterator::over_context(lookup.lookup_props, &OPTIONS, false),
        syllable: 0,
        is_level: true,
    };
    if ctx.input.is_empty() {
        return None;
    }
    let mut search = Search::new(Budget::new(1000, 5));
    let fit = fitting_rule(list, subtable, 0, &ctx, &mut search)?;
    Some(fit.record(0)?.lookup)
}

/// A table, glyphs, and the rule that is taken at the first of them.
struct Row {
    name: &'static str,
    table: &'static [u16],
    glyphs: &'static [u32],
    rule: Option<u16>,
}

static ROWS: [Row; 21] = [
    Row {
        name: "the first rule that fits, of four",
        table: FOUR_RULES,
        glyphs: &[10, 11],
        rule: Some(1),
    },
    Row {
        name: "the first rule that fits, of five",
        table: FIVE_RULES,
        glyphs: &[10, 11],
        rule: Some(1),
    },
    Row {
        name: "a later one, of four",
        table: FOUR_RULES,
        glyphs: &[10, 12],
        rule: Some(2),
    },
    Row {
        name: "a later one, of five",
        table: FIVE_RULES,
        glyphs: &[10, 12],
        rule: Some(2),
    },
    Row {
        name: "one with a second glyph, of four",
        table: FOUR_RULES,
        glyphs: &[10, 13],
        rule: Some(3),
    },
    Row {
        name: "one with a second glyph, of five",
        table: FIVE_RULES,
        glyphs: &[10, 13],
        rule: Some(3),
    },
    Row {
        name: "the fifth, of four",
        table: FOUR_RULES,
        glyphs: &[10, 14],
        rule: None,
    },
    Row {
        name: "the fifth, of five",
        table: FIVE_RULES,
        glyphs: &[10, 14],
        rule: Some(5),
    },
    Row {
        name: "none, of four",
        table: FOUR_RULES,
        glyphs: &[10, 15, 11],
        rule: None,
    },
    Row {
        name: "none, of five",
        table: FIVE_RULES,
        glyphs: &[10, 15, 11],
        rule: None,
    },
    Row {
        name: "nothing stands behind the glyph, of four",
        table: FOUR_RULES,
        glyphs: &[10],
        rule: None,
    },
    Row {
        name: "nothing stands behind the glyph, of five",
        table: FIVE_RULES,
        glyphs: &[10],
        rule: None,
    },
    Row {
        name: "a joiner is passed over, of four",
        table: FOUR_RULES,
        glyphs: &[10, JOINER, 12],
        rule: Some(2),
    },
    Row {
        name: "a joiner is passed over, of five",
        table: FIVE_RULES,
        glyphs: &[10, JOINER, 12],
        rule: Some(2),
    },
    Row {
        name: "a non-joiner ends the look ahead in a large set, of four",
        table: FOUR_RULES,
        glyphs: &[10, NON_JOINER, 12],
        rule: Some(2),
    },
    Row {
        name: "a non-joiner ends the look ahead in a large set, of five",
        table: FIVE_RULES,
        glyphs: &[10, NON_JOINER, 12],
        rule: None,
    },
    Row {
        name: "the first class",
        table: CLASSES,
        glyphs: &[10, 12],
        rule: Some(1),
    },
    Row {
        name: "a later class",
        table: CLASSES,
        glyphs: &[10, 11],
        rule: Some(2),
    },
    Row {
        name: "another glyph of that class",
        table: CLASSES,
        glyphs: &[10, 13],
        rule: Some(2),
    },
    Row {
        name: "a glyph of no class",
        table: CLASSES,
        glyphs: &[10, 14],
        rule: None,
    },
    Row {
        name: "no glyph behind it",
        table: CLASSES,
        glyphs: &[10],
        rule: None,
    },
];

/// The rule of a table that is taken at the first glyph.
fn rule_in(words: &[u16], glyphs: &[u32]) -> Result<Option<u16>, AllocError> {
    let table = bytes_of(words)?;
    let list = list_of(&table)?;
    Ok(rule_at(&list, glyphs))
}

#[test]
fn the_first_rule_that_fits_is_taken() -> Result<(), AllocError> {
    for row in &ROWS {
        let found = rule_in(row.table, row.glyphs)?;
        assert_eq!(found, row.rule, "{}", row.name);
    }
    Ok(())
}
