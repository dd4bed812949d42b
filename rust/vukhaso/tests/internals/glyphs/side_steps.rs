//! Steps of runs over both sides of a buffer. What a step requires is tested, and one that may run out of memory has to be done.

use crate::glyphs::lists::glyph;
use vukhaso::internals::glyph::hb_glyph_info_t;
use vukhaso::internals::glyph_lists::cluster_order::ClusterOrder;
use vukhaso::internals::glyph_lists::cluster_order::ClusterOrder::Monotone;
use vukhaso::internals::glyph_lists::glyph_flags::BREAK_BITS;
use vukhaso::internals::glyph_lists::range_change::RangeChange;
use vukhaso::internals::glyph_sides::Sides;

/// A step of a run.
#[derive(Clone, Copy)]
pub(crate) enum Step<'a> {
    Open,
    NextOne,
    Next(usize),
    Skip(usize),
    /// Puts out a glyph of a cluster, and reads so many.
    Put(u32, usize),
    Rewind(usize),
    Close,
    ReplaceKept(usize, &'a [u32]),
    Replace(usize, &'a [u32]),
    DeleteHead,
    MergeInput(usize, usize, ClusterOrder),
    ScanInput(usize, usize),
    ChangeRange(usize, usize, RangeChange),
    /// Writes the cluster of the glyph so many places after the cursor.
    WriteAhead(usize, u32),
    WriteLast(u32),
    WriteOut(u32),
    WriteList(u32),
    GoTo(usize),
    Truncate(usize),
    Clear,
    Reserve(usize),
    ReserveMore(usize),
    Append(&'a str),
}

pub(crate) fn make(sides: &mut Sides, step: &Step<'_>) {
    match *step {
        Step::Open => open(sides),
        Step::NextOne => next_one(sides),
        Step::Next(n) => next(sides, n),
        Step::Skip(n) => skip(sides, n),
        Step::Put(cluster, read) => put(sides, cluster, read),
        Step::Rewind(place) => rewind(sides, place),
        Step::Close => close(sides),
        Step::ReplaceKept(count, ids) => replace_kept(sides, count, ids),
        Step::Replace(count, ids) => replace(sides, count, ids),
        Step::DeleteHead => delete_head(sides),
        Step::MergeInput(start, end, order) => merge_input(sides, start, end, order),
        Step::ScanInput(start, end) => scan_input(sides, start, end),
        Step::ChangeRange(from, to, change) => change_range(sides, from, to, change),
        Step::WriteAhead(i, cluster) => write_ahead(sides, i, cluster),
        Step::WriteLast(cluster) => write_last(sides, cluster),
        Step::WriteOut(cluster) => write_clusters(sides.out_mut(), cluster),
        Step::WriteList(cluster) => write_list(sides, cluster),
        Step::GoTo(place) => go_to(sides, place),
        Step::Truncate(len) => truncate(sides, len),
        Step::Clear => sides.clear(),
        Step::Reserve(size) => reserve(sides, size),
        Step::ReserveMore(more) => reserve_more(sides, more),
        Step::Append(text) => append(sides, text),
    }
}

fn open(sides: &mut Sides) {
    assert!(!sides.is_open());
    sides.open();
}

fn next_one(sides: &mut Sides) {
    assert!(sides.lookahead_len() > 0);
    assert!(sides.next_one().is_ok());
}

fn next(sides: &mut Sides, n: usize) {
    assert!(n <= sides.lookahead_len());
    assert!(sides.next(n).is_ok());
}

fn skip(sides: &mut Sides, n: usize) {
    assert!(n <= sides.lookahead_len());
    sides.skip(n);
}

fn put(sides: &mut Sides, cluster: u32, read: usize) {
    assert!(sides.is_open() && read <= sides.input().len());
    assert!(sides.put(glyph(cluster, 0), read).is_ok());
}

fn rewind(sides: &mut Sides, place: usize) {
    assert!(place < sides.out_len());
    assert!(sides.rewind(place).is_ok());
}

fn close(sides: &mut Sides) {
    assert!(sides.is_open());
    assert!(sides.close().is_ok());
}

fn replace_kept(sides: &mut Sides, count: usize, ids: &[u32]) {
    let within = count <= sides.input().len() && !sides.input().is_empty();
    assert!(sides.is_open() && within);
    assert!(sides.out_len() <= 9 && sides.len() <= 9);
    assert!(sides.replace_kept(count, ids, Monotone, 9));
}

fn replace(sides: &mut Sides, count: usize, ids: &[u32]) {
    let within = count <= sides.input().len() && !sides.input().is_empty();
    assert!(sides.is_open() && within);
    assert!(sides.replace(count, ids, Monotone).is_ok());
}

fn delete_head(sides: &mut Sides) {
    assert!(sides.is_open() && !sides.input().is_empty());
    sides.delete_head(Monotone);
}

fn merge_input(sides: &mut Sides, start: usize, end: usize, order: ClusterOrder) {
    assert!(sides.idx() <= start && start <= end && end <= sides.len());
    sides.merge_input(start, end, order);
}

fn scan_input(sides: &mut Sides, start: usize, end: usize) {
    assert!(sides.idx() <= start && start <= end && end <= sides.len());
    sides.scan_input(start, end, BREAK_BITS, Monotone);
}

fn change_range(sides: &mut Sides, from: usize, to: usize, change: RangeChange) {
    assert!(sides.out().len() <= to && from <= to);
    assert!(to <= sides.out().len() + sides.input().len());
    sides.change_range(from, to, change);
}

fn write_clusters(glyphs: &mut [hb_glyph_info_t], cluster: u32) {
    for glyph in glyphs {
        glyph.cluster = cluster;
    }
}

fn write_ahead(sides: &mut Sides, i: usize, cluster: u32) {
    assert!(i < sides.lookahead_len());
    sides.cur_mut(i).cluster = cluster;
}

fn write_last(sides: &mut Sides, cluster: u32) {
    assert!(sides.out_len() > 0);
    sides.last_mut().cluster = cluster;
}

fn write_list(sides: &mut Sides, cluster: u32) {
    assert!(!sides.is_open());
    write_clusters(sides.list_mut(), cluster);
}

fn go_to(sides: &mut Sides, place: usize) {
    assert!(!sides.is_open() && place <= sides.input().len());
    sides.go_to(place);
}

fn truncate(sides: &mut Sides, len: usize) {
    assert!(!sides.is_open());
    sides.truncate(len);
}

fn reserve(sides: &mut Sides, size: usize) {
    assert!(sides.reserve(size).is_ok());
}

fn reserve_more(sides: &mut Sides, more: usize) {
    assert!(!sides.is_open());
    assert!(sides.reserve_more(more).is_ok());
}

fn append(sides: &mut Sides, text: &str) {
    assert!(!sides.is_open());
    let count = text.chars().count();
    assert!(sides.append(text, count).is_ok());
}

fn push(sides: &mut Sides, cluster: u32) {
    assert!(!sides.is_open());
    assert!(sides.push(glyph(cluster, 0)).is_ok());
}

/// A list of glyphs in these clusters.
pub(crate) fn list(clusters: &[u32]) -> Sides {
    let mut sides = Sides::new();
    for cluster in clusters {
        push(&mut sides, *cluster);
    }
    sides
}

/// What steps make of a list of glyphs in these clusters.
pub(crate) fn made(clusters: &[u32], steps: &[Step<'_>]) -> Sides {
    let mut sides = list(clusters);
    for step in steps {
        make(&mut sides, step);
    }
    sides
}
