// Written by tools/plain_rust from crates/glyph_lists. Do not edit.

//! The range of glyphs that a merge changes, found by reading little more than that range.

use crate::glyph_lists::cluster_reads::ClusterReads;

/// The least cluster of a range of two glyphs or more, of which the first and the last were read.
///
/// # Requires
///
/// - `some: start + 2 ≤ end`
/// - `within: end ≤ length (both_clusters reads.old)`
/// - `first: first ≡ slice_index (both_clusters reads.old) start`
/// - `last: last ≡ slice_index (both_clusters reads.old) (end - 1)`
/// - `few: FewReads reads.old`
#[inline(always)]
fn least_cluster(reads: &mut ClusterReads, start: usize, end: usize, first: u32, last: u32) -> u32 {
    debug_assert!(start + 2 <= end);
    let mut least = first;
    for i in start + 1..end - 1 {
        least = least.min(reads.cluster(i));
    }
    least.min(last)
}

/// Where the run of `cluster` begins that ends before `end`, not below `floor`.
///
/// # Requires
///
/// - `within: end ≤ length (both_clusters reads.old)`
/// - `few: FewReads reads.old`
#[inline(always)]
fn run_start_before(reads: &mut ClusterReads, cluster: u32, floor: usize, end: usize) -> usize {
    let mut start = end;
    while start > floor && reads.cluster(start - 1) == cluster {
        start -= 1;
    }
    start
}

/// Where the run of `cluster` ends that begins at `start`.
///
/// # Requires
///
/// - `within: start ≤ length (both_clusters reads.old)`
/// - `few: FewReads reads.old`
#[inline(always)]
fn run_end_after(reads: &mut ClusterReads, cluster: u32, start: usize) -> usize {
    let len = reads.len();
    let mut end = start;
    while end < len && reads.cluster(end) == cluster {
        end += 1;
    }
    end
}

/// The least cluster of the range from `start` to `end` of two lists as one, and the range widened
/// through the runs at its ends: its start, not below `floor`, and its end, which is not in it. It
/// reads no more clusters than the widened range has, and two.
///
/// # Requires
///
/// - `fresh: reads.old.reads ≡ 0`
/// - `some: start + 2 ≤ end`
/// - `within: end ≤ length reads.old.out + length reads.old.input`
///
/// # Proved
///
/// ```text
/// ensures least { result.0 ≡ range_least (both_clusters reads.old) start end }
/// ensures from { result.1 ≡ widened_start (both_clusters reads.old) start end floor }
/// ensures to { result.2 ≡ widened_end (both_clusters reads.old) start end }
/// ensures below { result.1 ≤ start }
/// ensures above { end ≤ result.2 }
/// ensures range_within { result.2 ≤ length reads.old.out + length reads.old.input }
/// ensures same { SameLists reads.old reads.new }
/// ensures cost { reads.new.reads ≤ result.2 - result.1 + 2 }
/// ```
#[inline(always)]
pub fn merge_range(
    reads: &mut ClusterReads,
    start: usize,
    end: usize,
    floor: usize,
) -> (u32, usize, usize) {
    debug_assert!(start + 2 <= end);
    let first = reads.cluster(start);
    let last = reads.cluster(end - 1);
    let least = least_cluster(reads, start, end, first, last);
    // Of two glyphs one is the least, so that a merge of two walks one run in either branch.
    if last == least {
        let from = if first == least {
            start
        } else {
            run_start_before(reads, first, floor, start)
        };
        return (least, from, end);
    }
    let to = run_end_after(reads, last, end);
    let from = if first == least {
        start
    } else {
        run_start_before(reads, first, floor, start)
    };
    (least, from, to)
}

/// What a merge of two glyphs changes.
#[derive(Clone, Copy, PartialEq, Eq, Debug)]
pub enum PairChange {
    /// Nothing: they share a cluster.
    Nothing,
    /// The second alone goes to this cluster.
    Second(u32),
    /// The first alone goes to this cluster.
    First(u32),
    /// A run of several goes to the cluster of the other glyph.
    Run,
}

/// What a merge of the two glyphs from `start` to `end` changes, the range not widened below `floor`.
/// It is a run only where the widened range has a third glyph. It reads three clusters at most.
///
/// # Requires
///
/// - `fresh: reads.old.reads ≡ 0`
/// - `pair: end ≡ start + 2`
/// - `within: end ≤ length (reads.old.out ++ reads.old.input)`
///
/// # Proved
///
/// ```text
/// ensures is { run_merge (reads.old.out ++ reads.old.input) start end floor
///     ≡ pair_changed result start floor (reads.old.out ++ reads.old.input) }
/// ensures several { result ≡ Run → widened_start (both_clusters reads.old) start end floor + 2
///     < widened_end (both_clusters reads.old) start end }
/// ensures same { SameLists reads.old reads.new }
/// ensures cost { reads.new.reads ≤ 3 }
/// ```
#[inline(always)]
pub fn pair_change(reads: &mut ClusterReads, start: usize, end: usize, floor: usize) -> PairChange {
    debug_assert!(end == start + 2);
    let first = reads.cluster(start);
    let second = reads.cluster(end - 1);
    if first < second {
        if end >= reads.len() || reads.cluster(end) != second {
            return PairChange::Second(first);
        }
        return PairChange::Run;
    }
    if second < first {
        if start <= floor || reads.cluster(start - 1) != first {
            return PairChange::First(second);
        }
        return PairChange::Run;
    }
    PairChange::Nothing
}
