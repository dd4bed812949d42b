//! What a lookup of ligatures does, and for which glyphs it has a rule.

use crate::fonts::bytes::bytes_of;
use crate::fonts::lookups::{JOINER, OPTIONS, fill, list_of};
use vukhaso::internals::glyph::hb_glyph_info_t;
use vukhaso::internals::glyph_digests::Digest;
use vukhaso::internals::ot_layout::{ApplyContext, Budget, Search, SkippingIterator};
use vukhaso::internals::ot_lookups::subtable_kind::{positioning_kind, substitution_kind};
use vukhaso::internals::ot_lookups::{
    ContextFormat, LookupList, PairFormat, SingleFormat, SubtableKind,
};
use vukhaso::internals::ot_substitution::substitution::{Edit, edit_at};
use vukhaso::internals::ot_substitution::would_substitute;
use vukhaso::memory::AllocError;

/// A table `GSUB` with one lookup: 10, 11 and 12 become the ligature 20, and 10 and 13 the ligature 21.
const LIGATURES: &[u16] = &[
    1, 0, 0, 0, 10, 1, 4, 4, 0, 1, 8, 1, 8, 1, 14, 1, 1, 10, 2, 6, 14, 20, 3, 11, 12, 21, 2, 13,
];

/// The same, where the second ligature has the one component 10.
const WITH_SINGLE: &[u16] = &[
    1, 0, 0, 0, 10, 1, 4, 4, 0, 1, 8, 1, 8, 1, 14, 1, 1, 10, 2, 6, 14, 20, 3, 11, 12, 21, 1, 0,
];

/// The glyph that the first lookup puts at the cursor, and how many glyphs of the input it takes.
fn ligature_at(list: &LookupList, ids: &[u32]) -> Option<(u16, usize)> {
    let mut glyphs = [hb_glyph_info_t::default(); 5];
    fill(&mut glyphs, ids);
    let lookup = list.lookup(0)?;
    let ctx = ApplyContext {
        out: &[],
        input: &glyphs,
        iterator: SkippingIterator::over_input(lookup.lookup_props, &OPTIONS, false),
        context: SkippingIterator::over_context(lookup.lookup_props, &OPTIONS, false),
        syllable: 0,
        is_level: true,
    };
    let mut search = Search::new(Budget::new(1000, 5));
    match edit_at(list, lookup, &OPTIONS, false, &ctx, &mut search)? {
        Edit::Ligate(ligation) => Some((ligation.ligature, ligation.end)),
        Edit::Replace(glyph) => Some((glyph, 1)),
        _ => None,
    }
}

/// A table, glyphs, and the ligature at the first of them.
struct Row {
    name: &'static str,
    table: &'static [u16],
    glyphs: &'static [u32],
    ligature: Option<(u16, usize)>,
}

static ROWS: [Row; 12] = [
    Row {
        name: "the first ligature",
        table: LIGATURES,
        glyphs: &[10, 11, 12],
        ligature: Some((20, 3)),
    },
    Row {
        name: "the first ligature, beside a single one",
        table: WITH_SINGLE,
        glyphs: &[10, 11, 12],
        ligature: Some((20, 3)),
    },
    Row {
        name: "a later one",
        table: LIGATURES,
        glyphs: &[10, 13],
        ligature: Some((21, 2)),
    },
    Row {
        name: "a later one, beside a single one",
        table: WITH_SINGLE,
        glyphs: &[10, 13],
        ligature: Some((21, 1)),
    },
    Row {
        name: "a joiner is passed over",
        table: LIGATURES,
        glyphs: &[10, JOINER, 11, 12],
        ligature: Some((20, 4)),
    },
    Row {
        name: "a joiner is passed over, beside a single one",
        table: WITH_SINGLE,
        glyphs: &[10, JOINER, 11, 12],
        ligature: Some((20, 4)),
    },
    Row {
        name: "the next glyph is the second one of no ligature",
        table: LIGATURES,
        glyphs: &[10, 14, 12],
        ligature: None,
    },
    Row {
        name: "the next glyph is the second one of no ligature, beside a single one",
        table: WITH_SINGLE,
        glyphs: &[10, 14, 12],
        ligature: Some((21, 1)),
    },
    Row {
        name: "the last component is missing",
        table: LIGATURES,
        glyphs: &[10, 11],
        ligature: None,
    },
    Row {
        name: "the last component is missing, beside a single one",
        table: WITH_SINGLE,
        glyphs: &[10, 11],
        ligature: Some((21, 1)),
    },
    Row {
        name: "a glyph that is not covered",
        table: LIGATURES,
        glyphs: &[11, 12],
        ligature: None,
    },
    Row {
        name: "a glyph that is not covered, beside a single one",
        table: WITH_SINGLE,
        glyphs: &[11, 12],
        ligature: None,
    },
];

/// The ligature at the first of these glyphs by the first lookup of a table.
fn ligature_in(words: &[u16], glyphs: &[u32]) -> Result<Option<(u16, usize)>, AllocError> {
    let table = bytes_of(words)?;
    let list = list_of(&table)?;
    Ok(ligature_at(&list, glyphs))
}

#[test]
fn the_first_ligature_that_fits_is_taken() -> Result<(), AllocError> {
    for row in &ROWS {
        let found = ligature_in(row.table, row.glyphs)?;
        assert_eq!(found, row.ligature, "{}", row.name);
    }
    Ok(())
}

/// Whether the first lookup has a rule for just these glyphs.
fn would(list: &LookupList, glyphs: &[u32]) -> bool {
    let mut budget = Budget::new(1000, glyphs.len());
    match list.lookup(0) {
        Some(lookup) => would_substitute(list, lookup, glyphs, false, &mut budget),
        None => false,
    }
}

/// The same, in the table of ligatures.
fn ligatures_would(glyphs: &[u32]) -> Result<bool, AllocError> {
    let table = bytes_of(LIGATURES)?;
    let list = list_of(&table)?;
    Ok(would(&list, glyphs))
}

/// Glyphs, and whether the table of ligatures has a rule for just these.
static RULES: [(&[u32], bool); 7] = [
    (&[10, 11, 12], true),
    (&[10, 13], true),
    (&[10, 11], false),
    (&[10, 11, 12, 12], false),
    (&[10], false),
    (&[11, 12], false),
    (&[], false),
];

#[test]
fn rules_are_for_all_of_their_glyphs() -> Result<(), AllocError> {
    for (number, (glyphs, is_there)) in RULES.iter().enumerate() {
        assert_eq!(ligatures_would(glyphs)?, *is_there, "{number}");
    }
    Ok(())
}

/// Whether a lookup may do something to a text.
fn may_apply(list: &LookupList, lookup: u16, glyphs: &[u32]) -> bool {
    let mut text = Digest::new();
    for glyph in glyphs {
        text.add(*glyph);
    }
    list.may_apply(lookup, &text)
}

/// The first of four glyphs from a place on that the first lookup is for.
fn place_from(list: &LookupList, mask: u32, start: usize) -> Option<usize> {
    let mut glyphs = [hb_glyph_info_t::default(); 4];
    fill(&mut glyphs, &[14, 10, 11, 10]);
    if start > glyphs.len() {
        return None;
    }
    Some(list.lookup(0)?.first_place(mask, &glyphs, start))
}

/// A lookup is for the glyphs that it covers, in a feature's bits.
#[test]
fn lookups_are_for_glyphs() -> Result<(), AllocError> {
    let table = bytes_of(LIGATURES)?;
    let list = list_of(&table)?;
    assert!(!list.is_positioning());
    assert!(list.lookup(1).is_none());
    for (lookup, glyphs, may) in [
        (0, [14, 14], false),
        (0, [14, 10], true),
        (1, [14, 10], false),
    ] {
        assert_eq!(may_apply(&list, lookup, &glyphs), may, "{lookup}");
    }
    for (mask, start, place) in [(8, 0, 1), (8, 2, 3), (4, 0, 4)] {
        assert_eq!(
            place_from(&list, mask, start),
            Some(place),
            "{mask} {start}"
        );
    }
    Ok(())
}

/// Types of lookups and formats, and the kinds of their subtables.
static SUBSTITUTIONS: [(u16, u16, Option<SubtableKind>); 10] = [
    (
        1,
        2,
        Some(SubtableKind::SingleSubstitution(SingleFormat::Glyphs)),
    ),
    (4, 1, Some(SubtableKind::LigatureSubstitution)),
    (5, 1, Some(SubtableKind::Context(ContextFormat::Glyphs))),
    (5, 2, Some(SubtableKind::Context(ContextFormat::Classes))),
    (
        6,
        2,
        Some(SubtableKind::ChainedContext(ContextFormat::Classes)),
    ),
    (5, 3, Some(SubtableKind::Context(ContextFormat::Coverages))),
    (
        6,
        3,
        Some(SubtableKind::ChainedContext(ContextFormat::Coverages)),
    ),
    (8, 1, Some(SubtableKind::ReverseSubstitution)),
    (4, 2, None),
    (7, 1, None),
];

/// The same of `GPOS`, where contexts have other types.
static POSITIONS: [(u16, u16, Option<SubtableKind>); 8] = [
    (2, 1, Some(SubtableKind::PairAdjustment(PairFormat::Glyphs))),
    (
        2,
        2,
        Some(SubtableKind::PairAdjustment(PairFormat::Classes)),
    ),
    (5, 1, Some(SubtableKind::MarkToLigature)),
    (7, 2, Some(SubtableKind::Context(ContextFormat::Classes))),
    (
        8,
        2,
        Some(SubtableKind::ChainedContext(ContextFormat::Classes)),
    ),
    (
        8,
        3,
        Some(SubtableKind::ChainedContext(ContextFormat::Coverages)),
    ),
    (8, 4, None),
    (9, 1, None),
];

#[test]
fn subtables_have_kinds() {
    for (lookup_type, format, kind) in &SUBSTITUTIONS {
        let found = substitution_kind(*lookup_type, *format);
        assert_eq!(found, *kind, "{lookup_type} {format}");
    }
    for (lookup_type, format, kind) in &POSITIONS {
        let found = positioning_kind(*lookup_type, *format);
        assert_eq!(found, *kind, "{lookup_type} {format}");
    }
}
