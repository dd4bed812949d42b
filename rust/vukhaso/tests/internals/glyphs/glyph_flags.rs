use crate::glyphs::lists::{assert_masks, glyph, glyphs};
use vukhaso::internals::glyph_lists::cluster_order::ClusterOrder;
use vukhaso::internals::glyph_lists::cluster_order::ClusterOrder::{Any, Monotone};
use vukhaso::internals::glyph_lists::glyph_flags::scan_slice;
use vukhaso::internals::glyph_lists::range_change::{RangeChange, change};

/// Clusters, a range, their order, and the masks after the scan.
static SCANS: [([u32; 4], usize, usize, ClusterOrder, [u32; 4]); 6] = [
    ([1, 1, 2, 3], 0, 4, Monotone, [0, 0, 3, 3]),
    ([1, 3, 1, 2], 0, 4, Monotone, [0, 0, 0, 3]),
    ([4, 3, 3, 1], 0, 4, Monotone, [3, 3, 3, 0]),
    ([2, 1, 3, 1], 0, 4, Any, [3, 0, 3, 0]),
    ([1, 3, 1, 2], 1, 2, Any, [0, 0, 0, 0]),
    ([1, 3, 1, 2], 4, 4, Monotone, [0, 0, 0, 0]),
];

#[test]
fn a_scan_of_one_part_marks_all_but_the_least() {
    for &(clusters, start, end, order, masks) in &SCANS {
        let mut info = glyphs(clusters);
        assert!(start <= end && end <= 4);
        scan_slice(&mut info[start..end], 3, order);
        assert_masks(&info, &masks);
    }
    let mut info = [glyph(0, 8), glyph(1, 8), glyph(2, 1)];
    scan_slice(&mut info[..2], 4, Monotone);
    assert_masks(&info, &[8, 12, 1]);
}

/// How many were put out, clusters, a range, their order, and the masks after the scan.
static SCANS_OF_TWO: [(usize, [u32; 4], usize, usize, ClusterOrder, [u32; 4]); 7] = [
    (2, [0, 1, 1, 2], 0, 4, Monotone, [0, 3, 3, 3]),
    (3, [3, 1, 3, 1], 0, 4, Monotone, [3, 0, 3, 0]),
    (2, [3, 1, 1, 2], 0, 4, Monotone, [3, 0, 0, 3]),
    (3, [0, 2, 1, 3], 1, 4, Any, [0, 3, 0, 3]),
    (2, [0, 1, 2, 3], 2, 4, Monotone, [0, 0, 0, 3]),
    (2, [0, 1, 2, 3], 0, 2, Monotone, [0, 3, 0, 0]),
    (1, [0, 1, 2, 1], 1, 3, Monotone, [0, 0, 3, 0]),
];

/// The out side holds the first glyphs, and the input the others.
#[test]
fn a_scan_of_two_parts_goes_by_the_least_of_both() {
    for &(cut, clusters, start, end, order, masks) in &SCANS_OF_TWO {
        let mut list = glyphs(clusters);
        assert!(cut <= end && start <= end && end <= 4);
        let (out, input) = list.split_at_mut(cut);
        let scan = RangeChange::Scan { bits: 3, order };
        change(out, input, start, end, scan);
        assert_masks(out, &masks[..cut]);
        assert_masks(input, &masks[cut..]);
    }
}

#[test]
fn a_range_is_marked_on_both_sides() {
    let mut out = glyphs([0, 1]);
    let mut input = [glyph(2, 1), glyph(3, 0)];
    change(&mut out, &mut input, 1, 3, RangeChange::Mark { bits: 2 });
    assert_masks(&out, &[0, 2]);
    assert_masks(&input, &[3, 0]);
}
