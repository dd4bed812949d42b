//! Tests of both sides of a buffer: runs of steps, and what they leave.
use crate::glyphs::lists::{assert_clusters, assert_glyphs};
use crate::glyphs::side_steps::{Step, list, made, make};
use vukhaso::internals::glyph_lists::cluster_order::ClusterOrder::{Any, Monotone};
use vukhaso::internals::glyph_lists::glyph_flags::BREAK_BITS;
use vukhaso::internals::glyph_lists::range_change::RangeChange;
use vukhaso::internals::glyph_sides::Sides;

/// Steps, and what they leave: the clusters and masks of both sides, and whether the output is separate.
struct Stage<'a> {
    steps: &'a [Step<'a>],
    out: &'a [(u32, u32)],
    input: &'a [(u32, u32)],
    is_separate: bool,
}

fn make_all(sides: &mut Sides, stage: &Stage<'_>) {
    for step in stage.steps {
        make(sides, step);
    }
    assert_glyphs(sides.out(), stage.out);
    assert_glyphs(sides.input(), stage.input);
    assert!(sides.out_len() == stage.out.len());
    assert!(sides.is_separate() == stage.is_separate);
}

/// The clusters of a list, and the stages of a run over it.
type Run<'a> = (&'a [u32], &'a [Stage<'a>]);

fn assert_runs(runs: &[Run<'_>]) {
    for (clusters, stages) in runs {
        let mut sides = list(clusters);
        for stage in *stages {
            make_all(&mut sides, stage);
        }
    }
}

const IN_PLACE: &[Step<'static>] = &[
    Step::Open,
    Step::NextOne,
    Step::Skip(1),
    Step::Put(9, 0),
    Step::Next(2),
];

const SEPARATE: &[Step<'static>] = &[Step::Open, Step::Put(7, 0), Step::Put(8, 1), Step::Next(1)];

static CURSOR: [Run<'static>; 2] = [
    (
        &[0, 1, 2, 3, 4],
        &[
            Stage {
                steps: IN_PLACE,
                out: &[(0, 0), (9, 0), (2, 0), (3, 0)],
                input: &[(4, 0)],
                is_separate: false,
            },
            Stage {
                steps: &[Step::Close],
                out: &[],
                input: &[(0, 0), (9, 0), (2, 0), (3, 0), (4, 0)],
                is_separate: false,
            },
        ],
    ),
    (
        &[0, 1, 2],
        &[
            Stage {
                steps: SEPARATE,
                out: &[(7, 0), (8, 0), (1, 0)],
                input: &[(2, 0)],
                is_separate: true,
            },
            Stage {
                steps: &[Step::Rewind(1)],
                out: &[(7, 0)],
                input: &[(8, 0), (1, 0), (2, 0)],
                is_separate: true,
            },
            Stage {
                steps: &[Step::Close],
                out: &[],
                input: &[(7, 0), (8, 0), (1, 0), (2, 0)],
                is_separate: false,
            },
        ],
    ),
];

#[test]
fn glyphs_are_put_out_and_taken_back() {
    assert_runs(&CURSOR);
}

/// Two glyphs in one cluster keep the first; a falling one is merged.
const COPIED: &[Step<'static>] = &[
    Step::Open,
    Step::ReplaceKept(2, &[50]),
    Step::Replace(2, &[51, 52, 53]),
];

#[test]
fn glyphs_give_way_to_copies() {
    let sides = made(&[0, 0, 3, 2, 5], COPIED);
    assert_clusters(sides.out(), &[0, 2, 2, 2]);
    assert_clusters(sides.input(), &[5]);
    assert!(!sides.is_separate());
    let last = sides.out().last().map(|glyph| glyph.glyph_id);
    assert!(last == Some(53));
}

/// Merges, marks and scans of both sides as one list.
static CHANGES: [Run<'static>; 2] = [
    (
        &[3, 9, 3, 2, 1],
        &[
            Stage {
                steps: &[
                    Step::Open,
                    Step::Next(1),
                    Step::Skip(1),
                    Step::MergeInput(2, 4, Monotone),
                ],
                out: &[(2, 0)],
                input: &[(2, 0), (2, 0), (1, 0)],
                is_separate: false,
            },
            Stage {
                steps: &[Step::MergeInput(3, 5, Any)],
                out: &[(2, 0)],
                input: &[(2, 0), (2, 3), (1, 0)],
                is_separate: false,
            },
            Stage {
                steps: &[Step::ChangeRange(0, 2, RangeChange::Mark { bits: 4 })],
                out: &[(2, 4)],
                input: &[(2, 4), (2, 3), (1, 0)],
                is_separate: false,
            },
            Stage {
                steps: &[Step::DeleteHead],
                out: &[(2, 4)],
                input: &[(2, 3), (1, 0)],
                is_separate: false,
            },
        ],
    ),
    (
        &[4, 3, 3, 1],
        &[
            Stage {
                steps: &[Step::Open, Step::Next(1), Step::ScanInput(1, 3)],
                out: &[(4, 0)],
                input: &[(3, 0), (3, 0), (1, 0)],
                is_separate: false,
            },
            Stage {
                steps: &[Step::ChangeRange(0, 4, SCAN)],
                out: &[(4, 3)],
                input: &[(3, 3), (3, 3), (1, 0)],
                is_separate: false,
            },
        ],
    ),
];

const SCAN: RangeChange = RangeChange::Scan {
    bits: BREAK_BITS,
    order: Monotone,
};

#[test]
fn both_sides_are_changed_as_one_list() {
    assert_runs(&CHANGES);
}

/// Lists that are written, cut and merged, and an output that is written.
static WRITES: [Run<'static>; 3] = [
    (
        &[0, 1, 2],
        &[
            Stage {
                steps: &[
                    Step::Open,
                    Step::Next(1),
                    Step::WriteAhead(1, 7),
                    Step::WriteLast(8),
                ],
                out: &[(8, 0)],
                input: &[(1, 0), (7, 0)],
                is_separate: false,
            },
            Stage {
                steps: &[Step::WriteOut(5)],
                out: &[(5, 0)],
                input: &[(1, 0), (7, 0)],
                is_separate: false,
            },
        ],
    ),
    (
        &[3, 3, 2, 1],
        &[
            Stage {
                steps: &[Step::Reserve(5), Step::ReserveMore(9)],
                out: &[],
                input: &[(3, 0), (3, 0), (2, 0), (1, 0)],
                is_separate: false,
            },
            Stage {
                steps: &[Step::GoTo(1), Step::MergeInput(1, 3, Monotone)],
                out: &[],
                input: &[(3, 0), (2, 0), (2, 0), (1, 0)],
                is_separate: false,
            },
            Stage {
                steps: &[Step::WriteList(6), Step::Truncate(2)],
                out: &[],
                input: &[(6, 0), (6, 0)],
                is_separate: false,
            },
            Stage {
                steps: &[Step::Clear],
                out: &[],
                input: &[],
                is_separate: false,
            },
        ],
    ),
    (
        &[9],
        &[Stage {
            steps: &[Step::Append("aéb")],
            out: &[],
            input: &[(9, 0), (0, 0), (1, 0), (3, 0)],
            is_separate: false,
        }],
    ),
];

#[test]
fn what_is_written_stands_at_its_place() {
    assert_runs(&WRITES);
}

/// Asserts the cluster of the current glyph, of the one behind it, and where the last place of both is.
fn assert_heads(sides: &Sides, head: u32, next: u32) {
    assert!(sides.is_open() && !sides.input().is_empty());
    assert!(sides.head().cluster == head);
    assert!(sides.lookahead_len() > 1);
    assert!(sides.cur(1).cluster == next);
}

fn assert_place(sides: &Sides, k: usize, place: usize) {
    assert!(sides.idx() <= k && k <= sides.len());
    assert!(sides.place(k) == place);
}

fn assert_exceeds(sides: &Sides, more: usize, max_len: usize) {
    assert!(more <= sides.lookahead_len());
    assert!(sides.out_len() <= max_len && sides.len() <= max_len);
    assert!(sides.next_exceeds(more, max_len));
}

#[test]
fn single_glyphs_and_places_are_read() {
    let sides = made(&[0, 1, 2], &[Step::Open, Step::Next(1)]);
    assert_heads(&sides, 1, 2);
    assert_place(&sides, 2, 2);
    let sides = made(&[0, 1, 2], SEPARATE);
    assert_exceeds(&sides, 1, 3);
}

/// Asserts where the cursor is, how many glyphs there are, and how many are left to read.
fn assert_lens(sides: &Sides, idx: usize, len: usize, left: usize) {
    assert!([sides.idx(), sides.len(), sides.lookahead_len()] == [idx, len, left]);
}

fn assert_storage(sides: &Sides, clusters: &[u32]) {
    assert!(!sides.is_separate());
    assert_clusters(sides.storage(), clusters);
}

#[test]
fn glyphs_in_place_are_stored_as_they_stand() {
    let mut sides = made(&[0, 1, 2, 3, 4], IN_PLACE);
    assert_lens(&sides, 4, 5, 1);
    assert_storage(&sides, &[0, 9, 2, 3, 4]);
    make(&mut sides, &Step::Close);
    assert_lens(&sides, 0, 5, 5);
}

/// Room is never taken away, and only what was asked for by its size is room.
#[test]
fn room_is_made() {
    let mut sides = list(&[3, 3, 2, 1]);
    assert!(sides.room() == 0);
    for (step, room) in [
        (Step::Reserve(5), 5),
        (Step::Reserve(3), 5),
        (Step::ReserveMore(9), 5),
    ] {
        make(&mut sides, &step);
        assert!(sides.room() == room);
    }
}
