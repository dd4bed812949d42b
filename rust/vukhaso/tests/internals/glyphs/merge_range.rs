use crate::glyphs::lists::glyphs;
use vukhaso::internals::glyph_lists::cluster_reads::ClusterReads;
use vukhaso::internals::glyph_lists::merge_range::{PairChange, merge_range, pair_change};

/// How many were put out, clusters, a range and a floor, and the least cluster and the range that is merged.
static RANGES: [(usize, [u32; 4], usize, usize, usize, (u32, usize, usize)); 5] = [
    (0, [4, 3, 3, 1], 0, 2, 0, (3, 0, 2)),
    (0, [4, 3, 3, 1], 1, 4, 0, (1, 1, 4)),
    (2, [3, 2, 2, 1], 2, 4, 0, (1, 1, 4)),
    (2, [3, 2, 2, 1], 2, 4, 2, (1, 2, 4)),
    (2, [0, 1, 1, 2], 0, 2, 0, (0, 0, 3)),
];

#[test]
fn a_range_is_widened_through_the_runs_at_its_ends() {
    for &(cut, clusters, start, end, floor, want) in &RANGES {
        let list = glyphs(clusters);
        assert!(
            cut <= 4 && start + 2 <= end && end <= 4,
            "{clusters:?} from {start} to {end}, {floor}"
        );
        let mut reads = ClusterReads::new(&list[..cut], &list[cut..]);
        assert!(
            merge_range(&mut reads, start, end, floor) == want,
            "{clusters:?} from {start} to {end}, {floor}"
        );
    }
}

/// How many were put out, clusters, the first of two glyphs, a floor, and what changes.
static PAIRS: [(usize, [u32; 4], usize, usize, PairChange); 7] = [
    (0, [4, 3, 3, 1], 0, 0, PairChange::First(3)),
    (0, [1, 2, 2, 2], 0, 0, PairChange::Run),
    (0, [1, 2, 3, 3], 0, 0, PairChange::Second(1)),
    (2, [3, 2, 2, 1], 2, 0, PairChange::Run),
    (2, [3, 2, 2, 1], 2, 2, PairChange::First(1)),
    (2, [0, 1, 2, 3], 2, 0, PairChange::Second(2)),
    (1, [1, 1, 2, 3], 0, 0, PairChange::Nothing),
];

#[test]
fn of_two_glyphs_the_higher_one_changes() {
    for &(cut, clusters, start, floor, want) in &PAIRS {
        let list = glyphs(clusters);
        assert!(cut <= 4 && start <= 2, "{clusters:?} from {start}, {floor}");
        let mut reads = ClusterReads::new(&list[..cut], &list[cut..]);
        assert!(
            pair_change(&mut reads, start, start + 2, floor) == want,
            "{clusters:?} from {start}, {floor}"
        );
    }
}
