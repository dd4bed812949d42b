//! Sets of glyphs, what a lookup passes over, and the parts of ligatures.

use crate::fonts::bytes::bytes_of;
use vukhaso::internals::font_tables::coverage::Coverage;
use vukhaso::internals::glyph::hb_glyph_info_t;
use vukhaso::internals::glyph_digests::Digest;
use vukhaso::internals::glyph_digests::first_glyphs::FirstGlyphs;
use vukhaso::internals::glyph_digests::summary::{Summary, summary_of};
use vukhaso::internals::ot_layout::ligature_parts::{
    component_count, ligature_component, ligature_id, ligature_properties, mark_properties,
};
use vukhaso::internals::ot_layout::{Budget, LookupOptions, Reach, SkippingIterator};
use vukhaso::internals::ot_lookups::LookupProps;
use vukhaso::internals::ot_lookups::lookup_props::covered_index;
use vukhaso::internals::ot_lookups::subtable::{behind_list, table_or_empty};
use vukhaso::internals::ot_substitution::glyph_table::Glyphs;
use vukhaso::memory::AllocError;

/// A glyph with these glyph properties and ligature properties.
fn glyph_of(id: u32, properties: u16, ligature: u8) -> hb_glyph_info_t {
    hb_glyph_info_t {
        glyph_id: id,
        var1: u32::from(properties) + u32::from(ligature) * 65536,
        ..hb_glyph_info_t::default()
    }
}

/// The digest of glyphs and of a range.
fn digest_of(glyphs: &[u32], ranges: &[(u32, u32)]) -> Digest {
    let mut digest = Digest::new();
    for glyph in glyphs {
        digest.add(*glyph);
    }
    for (first, last) in ranges {
        digest.add_range(*first, *last);
    }
    digest
}

/// Whether a digest may have a glyph.
fn digest_has(digest: &Digest, glyph: u32) -> bool {
    digest.may_have(glyph)
}

/// Glyphs that are added to a digest, a range that is, a glyph, and whether the digest may have it. Of a glyph, its neighbour and one
/// 64 glyphs on, it has the one that was added.
static DIGESTS: [(&[u32], &[(u32, u32)], u32, bool); 10] = [
    (&[], &[], 5, false),
    (&[5], &[], 5, true),
    (&[5], &[], 6, false),
    (&[5], &[], 69, false),
    (&[], &[(600, 602)], 599, false),
    (&[], &[(600, 602)], 600, true),
    (&[], &[(600, 602)], 601, true),
    (&[], &[(600, 602)], 602, true),
    (&[], &[(600, 602)], 603, false),
    (&[5], &[(600, 602)], 600, true),
];

#[test]
fn digests_have_what_was_added() {
    for (glyphs, ranges, glyph, is_there) in &DIGESTS {
        let digest = digest_of(glyphs, ranges);
        assert_eq!(digest_has(&digest, *glyph), *is_there, "{glyph}");
    }
}

#[test]
fn digests_are_put_together() {
    let one = digest_of(&[5], &[]);
    let mut others = digest_of(&[], &[(600, 602)]);
    assert!(!one.meets(&others));
    others.add_all(&one);
    assert!(digest_has(&others, 5));
    assert!(one.meets(&others));
}

/// The digest of a coverage in numbers of 16 bits, and the glyphs among the first 256 that it has.
fn summaries_of(words: &[u16]) -> Result<(Digest, FirstGlyphs), AllocError> {
    let table = bytes_of(words)?;
    let coverage = Coverage::new(&table);
    Ok((Digest::of_coverage(&coverage), summary_of(&coverage)))
}

/// Coverages, a glyph, and whether it is covered.
static COVERAGES: [(&[u16], u32, bool); 10] = [
    (&[1, 2, 5, 9], 5, true),
    (&[1, 2, 5, 9], 7, false),
    (&[1, 2, 5, 9], 9, true),
    (&[2, 1, 5, 9, 0], 4, false),
    (&[2, 1, 5, 9, 0], 5, true),
    (&[2, 1, 5, 9, 0], 7, true),
    (&[2, 1, 5, 9, 0], 9, true),
    (&[2, 1, 5, 9, 0], 10, false),
    (&[1, 0], 5, false),
    (&[], 5, false),
];

#[test]
fn summaries_are_of_coverages() -> Result<(), AllocError> {
    for (words, glyph, is_there) in &COVERAGES {
        let (digest, firsts) = summaries_of(words)?;
        assert_eq!(digest_has(&digest, *glyph), *is_there, "{glyph}");
        assert_eq!(are_first(&firsts, *glyph), *is_there, "{glyph}");
    }
    Ok(())
}

#[test]
fn digests_are_of_texts() {
    let digest = Digest::of_glyphs(&[glyph_of(5, 0, 0), glyph_of(9, 0, 0)]);
    for (glyph, is_there) in [(5, true), (7, false), (9, true)] {
        assert_eq!(digest_has(&digest, glyph), is_there, "{glyph}");
    }
}

#[test]
fn glyphs_beyond_16_bits_are_not_covered() -> Result<(), AllocError> {
    let listed = bytes_of(&[1, 2, 5, 9])?;
    for (glyph, index) in [(9, Some(1)), (65536 + 9, None)] {
        let found = covered_index(&Coverage::new(&listed), glyph);
        assert_eq!(found, index, "{glyph}");
    }
    Ok(())
}

/// The glyphs of ranges.
fn firsts_of(ranges: &[(u32, u32)]) -> FirstGlyphs {
    let mut firsts = FirstGlyphs::none();
    for (first, last) in ranges {
        firsts.add_range(*first, *last);
    }
    firsts
}

/// Whether a glyph may be among the first ones that were added.
fn are_first(firsts: &FirstGlyphs, glyph: u32) -> bool {
    firsts.may_have(glyph)
}

/// Ranges, a glyph, and whether it may be in them: of the first 256 those that were added are there, and no other; a glyph behind them
/// may always be.
static FIRSTS: [(&[(u32, u32)], u32, bool); 14] = [
    (&[], 0, false),
    (&[], 255, false),
    (&[], 256, true),
    (&[(60, 70), (250, 300)], 59, false),
    (&[(60, 70), (250, 300)], 60, true),
    (&[(60, 70), (250, 300)], 63, true),
    (&[(60, 70), (250, 300)], 64, true),
    (&[(60, 70), (250, 300)], 70, true),
    (&[(60, 70), (250, 300)], 71, false),
    (&[(60, 70), (250, 300)], 249, false),
    (&[(60, 70), (250, 300)], 250, true),
    (&[(60, 70), (250, 300)], 255, true),
    (&[(60, 70), (250, 300)], 256, true),
    (&[(60, 70), (250, 300)], 301, true),
];

#[test]
fn first_glyphs_are_told_apart() {
    for (ranges, glyph, is_there) in &FIRSTS {
        assert_eq!(are_first(&firsts_of(ranges), *glyph), *is_there, "{glyph}");
    }
}

#[test]
fn first_glyphs_are_put_together() {
    let mut others = firsts_of(&[(128, 128)]);
    others.add_all(&firsts_of(&[(60, 70), (250, 300)]));
    for (glyph, is_there) in [
        (128, true),
        (60, true),
        (255, true),
        (127, false),
        (129, false),
        (192, false),
    ] {
        assert_eq!(are_first(&others, glyph), is_there, "{glyph}");
    }
}

/// The flag of a lookup, a glyph and its properties, and whether it is passed over. The set of marks has the glyph 5 alone.
static PASSED: [(u16, u32, u16, bool); 10] = [
    (0x0000, 9, 0x0008, false),
    // bases, ligatures and marks
    (0x0002, 9, 0x0002, true),
    (0x0004, 9, 0x0002, false),
    (0x0004, 9, 0x0004, true),
    (0x0008, 9, 0x0008, true),
    // marks of another class, and those that are not in the set
    (0x0100, 9, 0x0108, false),
    (0x0100, 9, 0x0208, true),
    (0x0100, 9, 0x0002, false),
    (0x0010, 9, 0x0008, true),
    (0x0010, 5, 0x0008, false),
];

/// Whether a lookup with a flag and a set of marks passes over a glyph.
fn is_passed(flags: u16, marks: &[u8], glyph: &hb_glyph_info_t) -> bool {
    let lookup_props = LookupProps {
        flags,
        marks: Coverage::new(marks),
    };
    lookup_props.passes_over(glyph)
}

#[test]
fn flags_say_what_is_passed_over() -> Result<(), AllocError> {
    let marks = bytes_of(&[1, 1, 5])?;
    for (flags, number, properties, matcher) in &PASSED {
        let found = is_passed(*flags, &marks, &glyph_of(*number, *properties, 0));
        assert_eq!(found, *matcher, "{flags} {properties}");
    }
    Ok(())
}

/// The number of a glyph's ligature, its component, and how many components it has.
fn parts_of(glyph: &hb_glyph_info_t) -> (u8, u8, u8) {
    (
        ligature_id(glyph),
        ligature_component(glyph),
        component_count(glyph),
    )
}

/// The ligature of the number 3 has two components, and a mark belongs to the first of them.
#[test]
fn glyphs_are_parts_of_ligatures() {
    let ligature = glyph_of(9, 0x0004, ligature_properties(3, 2));
    let mark = glyph_of(10, 0x0008, mark_properties(3, 1));
    let letter = glyph_of(11, 0x0002, 0);
    for (glyph, parts) in [
        (ligature, (3, 0, 2)),
        (mark, (3, 1, 1)),
        (letter, (0, 0, 1)),
    ] {
        assert_eq!(parts_of(&glyph), parts, "{}", glyph.glyph_id);
    }
}

/// Glyphs that do not all lie in their table are none.
#[test]
fn tables_list_glyphs() -> Result<(), AllocError> {
    let whole = bytes_of(&[2, 7, 9])?;
    let glyphs = Glyphs::new(&whole);
    assert_eq!((glyphs.len(), glyphs.glyph(0), glyphs.glyph(1)), (2, 7, 9));
    let cut = bytes_of(&[3, 7, 9])?;
    assert_eq!(Glyphs::new(&cut).len(), 0);
    Ok(())
}

/// Whether a payment is met, what is left then, and whether all is spent.
fn paid(steps: u64, payment: u64) -> (bool, u64, bool) {
    let mut budget = Budget { nested: 1, steps };
    let is_met = budget.pay(payment);
    (is_met, budget.steps, budget.is_spent())
}

#[test]
fn budgets_are_spent() {
    let rows = [
        (425_984, 24, (true, 425_960, false)),
        (425_984, u64::MAX, (false, 0, true)),
        (16_384_262_144, 16_384_262_144, (true, 0, true)),
    ];
    for (steps, payment, left) in rows {
        assert_eq!(paid(steps, payment), left, "{payment} of {steps}");
    }
}

#[test]
fn budgets_are_for_glyphs() {
    let mut budget = Budget::new(1, 10);
    assert_eq!((budget.nested, budget.steps), (1, 425_984));
    assert!(budget.pay_for(10));
    assert_eq!(budget.steps, 425_974);
    assert_eq!((budget.nest(), budget.nest()), (true, false));
    assert_eq!(Budget::new(1, 1_000_000).steps, 16_384_262_144);
}

/// What a walk over an input or a context is confined to by the options of its feature, a mask and a
/// syllable, and whether it passes over non-joiners, joiners and hidden glyphs.
fn walk_of(is_input: bool, is_positioning: bool) -> (u32, u8, [bool; 3]) {
    let lookup_props = LookupProps {
        flags: 0,
        marks: Coverage::new(&[]),
    };
    let options = LookupOptions {
        mask: 8,
        auto_zwnj: true,
        auto_zwj: false,
        per_syllable: false,
        random: false,
    };
    let walk = if is_input {
        SkippingIterator::over_input(lookup_props, &options, is_positioning)
    } else {
        SkippingIterator::over_context(lookup_props, &options, is_positioning)
    };
    let ignored = [walk.ignores_zwnj, walk.ignores_zwj, walk.ignores_hidden];
    (walk.mask, walk.syllable, ignored)
}

#[test]
fn walks_go_by_their_options() {
    let rows = [
        (true, false, (8, 0, [false, false, false])),
        (false, false, (u32::MAX, 0, [true, true, false])),
        (true, true, (8, 0, [true, false, true])),
    ];
    for (is_input, is_positioning, walk) in rows {
        assert_eq!(
            walk_of(is_input, is_positioning),
            walk,
            "{is_input} {is_positioning}"
        );
    }
}

#[test]
fn tables_are_reached_by_offsets() -> Result<(), AllocError> {
    let table = bytes_of(&[0, 4, 2])?;
    assert_eq!(table_or_empty(&table, 2).len(), 2);
    assert!(table_or_empty(&table, 0).is_empty());
    assert_eq!(behind_list(&table, 4), 10);
    assert_eq!(behind_list(&table, 6), 8);
    Ok(())
}

#[test]
fn reaches_are_taken_together() {
    let mut reach = Reach::none(4);
    reach.extend(2, 3);
    reach.extend(3, 1);
    assert_eq!((reach.from, reach.to), (2, 3));
}
