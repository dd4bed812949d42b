use crate::glyphs::lists::{glyph, glyphs};
use vukhaso::internals::glyph_lists::cluster_order::ClusterOrder::{Any, Monotone};
use vukhaso::internals::glyph_lists::merged_head::{keeps_head, lowered_head};

/// The input, how many of its glyphs are merged, and whether the current glyph and what is behind them stay.
static KEPT: [([u32; 3], usize, bool); 7] = [
    ([0, 1, 2], 2, true),
    ([0, 0, 0], 2, true),
    ([0, 1, 1], 2, false),
    ([1, 0, 2], 2, false),
    ([5, 1, 1], 1, true),
    ([5, 1, 1], 0, true),
    ([0, 1, 2], 3, false),
];

#[test]
fn a_head_is_kept_where_no_glyph_that_stays_changes() {
    for &(input, count, kept) in &KEPT {
        assert!(
            keeps_head(&glyphs(input), count, Monotone) == kept,
            "{count} of {input:?}"
        );
    }
    assert!(keeps_head(&glyphs([0, 1]), 2, Monotone));
    assert!(!keeps_head(&glyphs([0, 1]), 2, Any));
    assert!(keeps_head(&glyphs([0, 1]), 1, Any));
}

/// What was put out, the input, how many of its glyphs are merged, and the cluster of the current glyph if it alone is
/// lowered.
static LOWERED: [([u32; 2], [u32; 3], usize, Option<u32>); 6] = [
    ([9, 9], [2, 1, 1], 2, Some(1)),
    ([2, 9], [2, 1, 0], 2, Some(1)),
    ([9, 2], [2, 1, 0], 2, None),
    ([9, 9], [1, 1, 0], 2, None),
    ([9, 9], [2, 1, 0], 3, None),
    ([9, 9], [2, 1, 0], 1, None),
];

#[test]
fn a_head_is_lowered_where_its_run_begins_there() {
    for &(out, input, count, cluster) in &LOWERED {
        let head = lowered_head(&glyphs(out), &glyphs(input), count, Monotone);
        assert!(
            head.map(|head| head.cluster) == cluster,
            "{count} of {input:?} behind {out:?}"
        );
    }
}

#[test]
fn a_lowered_head_loses_its_flags() {
    let input = [glyph(2, 15), glyph(1, 15)];
    let head = lowered_head(&[], &input, 2, Monotone);
    assert!(head.map(|head| head.mask) == Some(8));
    assert!(lowered_head(&[], &input, 2, Any).is_none());
}
