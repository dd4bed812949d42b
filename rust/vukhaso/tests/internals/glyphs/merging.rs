use crate::glyphs::lists::{assert_clusters, assert_glyphs, glyph, glyphs};
use vukhaso::internals::glyph_lists::cluster_order::ClusterOrder;
use vukhaso::internals::glyph_lists::merging::{merge_input, merge_out, merge_slice};

/// How many were put out, clusters, a range, and the clusters after the merge.
static MERGES: [(usize, [u32; 4], usize, usize, [u32; 4]); 11] = [
    (0, [3, 3, 2, 1], 1, 3, [2, 2, 2, 1]),
    (0, [4, 3, 3, 1], 0, 2, [3, 3, 3, 1]),
    (0, [4, 3, 3, 1], 1, 4, [4, 1, 1, 1]),
    (0, [1, 2, 2, 2], 0, 2, [1, 1, 1, 1]),
    (0, [1, 0, 1, 1], 0, 2, [0, 0, 1, 1]),
    (2, [3, 2, 2, 1], 2, 4, [3, 1, 1, 1]),
    (2, [0, 1, 1, 2], 0, 2, [0, 0, 0, 2]),
    (2, [4, 3, 2, 1], 2, 4, [4, 3, 1, 1]),
    (2, [0, 1, 2, 3], 0, 2, [0, 0, 2, 3]),
    (2, [0, 0, 1, 1], 1, 2, [0, 0, 1, 1]),
    (1, [1, 0, 2, 2], 0, 1, [1, 0, 2, 2]),
];

/// The out side holds the first glyphs, and the input the others.
#[test]
fn a_merge_takes_in_the_runs_at_its_ends() {
    for &(cut, before, start, end, after) in &MERGES {
        let mut list = glyphs(before);
        assert!(cut <= 4 && start <= end && end <= 4);
        let (out, input) = list.split_at_mut(cut);
        if end <= cut {
            merge_out(out, input, start, end);
        } else {
            assert!(cut <= start);
            merge_input(out, input, start - cut, end - cut, ClusterOrder::Monotone);
        }
        assert_clusters(out, &after[..cut]);
        assert_clusters(input, &after[cut..]);
    }
}

/// Clusters, a range and a floor, and the clusters after the merge.
static MERGES_OF_ONE: [([u32; 4], usize, usize, usize, [u32; 4]); 6] = [
    ([3, 3, 2, 1], 1, 3, 0, [2, 2, 2, 1]),
    ([3, 3, 2, 1], 1, 3, 1, [3, 2, 2, 1]),
    ([0, 1, 1, 2], 0, 2, 0, [0, 0, 0, 2]),
    ([2, 2, 1, 1], 0, 2, 0, [2, 2, 1, 1]),
    ([0, 1, 2, 2], 0, 3, 0, [0, 0, 0, 0]),
    ([1, 0, 2, 2], 0, 1, 0, [1, 0, 2, 2]),
];

#[test]
fn a_merge_of_one_list_takes_in_the_runs_at_its_ends() {
    for &(before, start, end, floor, after) in &MERGES_OF_ONE {
        let mut info = glyphs(before);
        assert!(start <= end && end <= 4);
        merge_slice(&mut info, start, end, floor, ClusterOrder::Monotone);
        assert_clusters(&info, &after);
    }
}

/// How many were put out, clusters, a range, and the clusters and masks of both sides after the merge.
static MARKS: [(usize, [u32; 4], usize, usize, &[(u32, u32)], &[(u32, u32)]); 3] = [
    (
        0,
        [0, 1, 2, 3],
        0,
        2,
        &[],
        &[(0, 0), (1, 3), (2, 0), (3, 0)],
    ),
    (1, [2, 0, 1, 2], 2, 4, &[(2, 0)], &[(0, 0), (1, 0), (2, 3)]),
    (
        0,
        [1, 0, 2, 2],
        0,
        1,
        &[],
        &[(1, 0), (0, 0), (2, 0), (2, 0)],
    ),
];

#[test]
fn a_merge_in_any_order_marks() {
    for &(cut, before, start, end, out_after, input_after) in &MARKS {
        let mut list = glyphs(before);
        assert!(cut <= start && start <= end && end <= 4);
        let (out, input) = list.split_at_mut(cut);
        merge_input(out, input, start - cut, end - cut, ClusterOrder::Any);
        assert_glyphs(out, out_after);
        assert_glyphs(input, input_after);
    }
}

#[test]
fn flags_go_where_the_cluster_changes() {
    let mut info = [glyph(0, 0), glyph(1, 3), glyph(2, 3)];
    merge_input(&mut [], &mut info, 1, 3, ClusterOrder::Monotone);
    assert_glyphs(&info, &[(0, 0), (1, 3), (1, 0)]);
}
