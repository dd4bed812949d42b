//! `hb-set.h`: sets of numbers below `HB_SET_VALUE_INVALID`, kept as ranges that do not touch.

mod calls;

use crate::object::{Empty, Header, Object, object_calls};
use std::collections::BTreeMap;

/// The number that is in no set.
pub const INVALID: u32 = u32::MAX;
/// The greatest number of a set.
const LAST: u32 = INVALID - 1;

pub struct hb_set_t {
    header: Header,
    /// The last number of each range, by the first.
    ranges: BTreeMap<u32, u32>,
    /// Whether the set was made by inversion, which calls tell.
    is_inverted: bool,
}

impl Object for hb_set_t {
    fn header(&self) -> &Header {
        &self.header
    }

    fn empty() -> *mut Self {
        static EMPTY: Empty<hb_set_t> = Empty::new();
        EMPTY.get(|| hb_set_t { header: Header::of_empty(), ranges: BTreeMap::new(), is_inverted: false })
    }
}

object_calls!(hb_set_t: hb_set_get_empty hb_set_reference hb_set_destroy hb_set_set_user_data hb_set_get_user_data);

/// An operation of two sets, by whether a number is in each.
type Operation = fn(bool, bool) -> bool;

impl hb_set_t {
    pub fn new() -> Self {
        hb_set_t { header: Header::new(), ranges: BTreeMap::new(), is_inverted: false }
    }

    fn clear(&mut self) {
        self.ranges.clear();
        self.is_inverted = false;
    }

    /// The range that a number is in.
    fn range_of(&self, number: u32) -> Option<(u32, u32)> {
        let (&first, &last) = self.ranges.range(..=number).next_back()?;
        (number <= last).then_some((first, last))
    }

    pub fn has(&self, number: u32) -> bool {
        self.range_of(number).is_some()
    }

    pub fn add(&mut self, number: u32) {
        self.add_range(number, number);
    }

    pub fn add_range(&mut self, first: u32, last: u32) {
        if first > last || last == INVALID {
            return;
        }
        let (mut first, mut last) = (first, last);
        let before = self.ranges.range(..=first).next_back().map(|(&start, &end)| (start, end));
        if let Some((start, end)) = before
            && u64::from(end) + 1 >= u64::from(first)
        {
            first = start;
            last = last.max(end);
        }
        loop {
            let behind = self.ranges.range(first..=last.saturating_add(1)).next().map(|(&start, &end)| (start, end));
            let Some((start, end)) = behind else {
                break;
            };
            self.ranges.remove(&start);
            last = last.max(end);
        }
        self.ranges.insert(first, last);
    }

    fn remove_range(&mut self, first: u32, last: u32) {
        let last = last.min(LAST);
        if first > last {
            return;
        }
        if let Some((start, end)) = self.range_of(first) {
            self.ranges.remove(&start);
            if start < first {
                self.ranges.insert(start, first - 1);
            }
            if end > last {
                self.ranges.insert(last + 1, end);
                return;
            }
        }
        while let Some((start, end)) = self.ranges.range(first..=last).next().map(|(&start, &end)| (start, end)) {
            self.ranges.remove(&start);
            if end > last {
                self.ranges.insert(last + 1, end);
            }
        }
    }

    fn invert(&mut self) {
        let mut gaps = BTreeMap::new();
        let mut next = 0;
        for (&first, &last) in &self.ranges {
            if next < first {
                gaps.insert(next, first - 1);
            }
            next = last + 1;
        }
        if next <= LAST {
            gaps.insert(next, LAST);
        }
        self.ranges = gaps;
        self.is_inverted = !self.is_inverted;
    }

    /// Where a number begins to be in the set or not to be, in order.
    fn edges(&self) -> impl Iterator<Item = u64> {
        self.ranges.iter().flat_map(|(&first, &last)| [u64::from(first), u64::from(last) + 1])
    }

    /// Puts what an operation of the two sets makes in the place of the first.
    fn operate(&mut self, other: &hb_set_t, operation: Operation) {
        let mut ranges = BTreeMap::new();
        let (mut mine, mut theirs) = (self.edges().peekable(), other.edges().peekable());
        let (mut in_mine, mut in_theirs) = (false, false);
        let mut start = None;
        while let Some(edge) = [mine.peek(), theirs.peek()].into_iter().flatten().min().copied() {
            if mine.next_if_eq(&edge).is_some() {
                in_mine = !in_mine;
            }
            if theirs.next_if_eq(&edge).is_some() {
                in_theirs = !in_theirs;
            }
            match (start, operation(in_mine, in_theirs)) {
                (None, true) => start = Some(edge as u32),
                (Some(first), false) => {
                    ranges.insert(first, (edge - 1) as u32);
                    start = None;
                }
                _ => {}
            }
        }
        let is_inverted = operation(self.is_inverted, other.is_inverted);
        drop((mine, theirs));
        self.ranges = ranges;
        self.is_inverted = is_inverted;
    }

    fn population(&self) -> u32 {
        self.ranges.iter().map(|(first, last)| last - first + 1).sum()
    }

    /// Its numbers of 16 bits.
    pub fn short_numbers(&self) -> impl Iterator<Item = u16> + '_ {
        let ranges = self.ranges.range(..=0xFFFF).map(|(&first, &last)| first as u16..=last.min(0xFFFF) as u16);
        ranges.flatten()
    }

    fn first(&self) -> Option<u32> {
        self.ranges.first_key_value().map(|(first, _)| *first)
    }

    fn last(&self) -> Option<u32> {
        self.ranges.last_key_value().map(|(_, last)| *last)
    }

    /// The least number behind another, with the end of its range; that of the whole set behind `INVALID`.
    fn next_range(&self, number: u32) -> Option<(u32, u32)> {
        if number == INVALID {
            return self.ranges.first_key_value().map(|(first, last)| (*first, *last));
        }
        let next = number + 1;
        if let Some((_, last)) = self.range_of(next) {
            return Some((next, last));
        }
        self.ranges.range(next..).next().map(|(first, last)| (*first, *last))
    }

    /// The greatest number before another, with the start of its range; that of the whole set before `INVALID`.
    fn previous_range(&self, number: u32) -> Option<(u32, u32)> {
        let previous = number.checked_sub(1)?;
        let (first, last) = self.ranges.range(..=previous).next_back()?;
        Some((*first, (*last).min(previous)))
    }
}
