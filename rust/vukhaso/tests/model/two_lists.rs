//! A plain model of the buffer's two sides: two lists, and what each call makes of them.

use vukhaso::{Answer, BufferFlags, Call, hb_glyph_info_t};

/// The glyph flags in a mask, and what break and tatweel calls set of them.
const GLYPH_FLAGS: u32 = 7;
const BREAK: u32 = 3;
const CONCAT: u32 = 2;
const TATWEEL: u32 = 4;

#[derive(Clone, Copy, Debug, Default, PartialEq, Eq)]
pub struct Glyph {
    pub id: u32,
    pub mask: u32,
    pub cluster: u32,
    pub var1: u32,
    pub var2: u32,
}

impl From<&hb_glyph_info_t> for Glyph {
    fn from(info: &hb_glyph_info_t) -> Glyph {
        let hb_glyph_info_t {
            glyph_id: id,
            mask,
            cluster,
            var1,
            var2,
        } = *info;
        Glyph {
            id,
            mask,
            cluster,
            var1,
            var2,
        }
    }
}

/// Both sides as plain lists. With no output open `out` is empty, and `input` is the whole list.
#[derive(Clone, Debug)]
pub struct Model {
    pub open: bool,
    pub out: Vec<Glyph>,
    pub input: Vec<Glyph>,
    pub idx: usize,
    level: u32,
    flags: BufferFlags,
}

fn put_into(glyph: &mut Glyph, cluster: u32, mask: u32) {
    if glyph.cluster != cluster {
        glyph.mask = glyph.mask & !GLYPH_FLAGS | mask & GLYPH_FLAGS;
        glyph.cluster = cluster;
    }
}

/// The neighbours of a glyph that share its cluster, with it.
fn run_of(list: &[Glyph], at: usize) -> (usize, usize) {
    let cluster = list[at].cluster;
    let before = list[..at]
        .iter()
        .rev()
        .take_while(|glyph| glyph.cluster == cluster)
        .count();
    let behind = list[at..]
        .iter()
        .take_while(|glyph| glyph.cluster == cluster)
        .count();
    (at - before, at + behind)
}

impl Model {
    /// A list of glyphs, with no output open.
    pub fn new(input: Vec<Glyph>, level: u32, flags: BufferFlags) -> Self {
        Model {
            open: false,
            out: vec![],
            input,
            idx: 0,
            level,
            flags,
        }
    }

    pub fn len(&self) -> usize {
        self.input.len() + if self.open { self.idx } else { 0 }
    }

    fn left(&self) -> usize {
        self.len() - self.idx
    }

    fn joined(&self) -> Vec<Glyph> {
        [&self.out[..], &self.input].concat()
    }

    fn set_joined(&mut self, mut list: Vec<Glyph>) {
        self.input = list.split_off(self.out.len());
        self.out = list;
    }

    /// Where glyph `k` of the input stands in both sides as one list.
    fn place(&self, k: usize) -> usize {
        if self.open {
            self.out.len() + k - self.idx
        } else {
            k
        }
    }

    fn marks_in_place_of_merging(&self) -> bool {
        self.level == 2 || self.level == 3
    }

    /// Sets bits in the glyphs of some parts that a scan finds outside the least cluster.
    fn scan(&mut self, parts: &[(usize, usize)], bits: u32) {
        let mut list = self.joined();
        let parts: Vec<_> = parts
            .iter()
            .copied()
            .filter(|(start, end)| start < end)
            .collect();
        let mut marked = vec![];
        if self.marks_in_place_of_merging() {
            let places = || parts.iter().flat_map(|&(start, end)| start..end);
            let least = places().map(|i| list[i].cluster).min();
            marked.extend(places().filter(|&i| Some(list[i].cluster) != least));
        } else {
            let ends = parts
                .iter()
                .map(|&(start, end)| list[start].cluster.min(list[end - 1].cluster));
            let least = ends.min().unwrap_or(0);
            for &(start, end) in &parts {
                let in_least = |i: &usize| list[*i].cluster == least;
                if in_least(&start) {
                    marked.extend((start..end).rev().take_while(|i| !in_least(i)));
                } else if in_least(&(end - 1)) {
                    marked.extend((start..end).take_while(|i| !in_least(i)));
                } else {
                    marked.extend((start..end).filter(|i| !in_least(i)));
                }
            }
        }
        marked.iter().for_each(|&i| list[i].mask |= bits);
        self.set_joined(list);
    }

    /// Merges places `start` to `end` of both sides, and the runs at their ends.
    fn join(&mut self, mut start: usize, mut end: usize, floor: usize) {
        if start >= end {
            return;
        }
        let mut list = self.joined();
        let (first, last) = (start, end - 1);
        let least = list[start..end]
            .iter()
            .map(|glyph| glyph.cluster)
            .min()
            .unwrap();
        if list[first].cluster != least && first >= floor {
            start = run_of(&list, first).0.max(floor);
        }
        if list[last].cluster != least {
            end = run_of(&list, last).1;
        }
        list[start..end]
            .iter_mut()
            .for_each(|glyph| put_into(glyph, least, 0));
        self.set_joined(list);
    }

    fn floor(&self) -> usize {
        if self.open { 0 } else { self.idx }
    }

    fn merge(&mut self, start: usize, end: usize) {
        if !self.marks_in_place_of_merging() {
            self.join(start, end, self.floor());
        } else if end - start >= 2 {
            self.scan(&[(start, end)], BREAK);
        }
    }

    fn delete(&mut self) {
        let glyph = self.input[0];
        let shares =
            |other: Option<&Glyph>| other.is_some_and(|other| other.cluster == glyph.cluster);
        if !shares(self.input.get(1)) && !shares(self.out.last()) {
            if let Some(last) = self.out.last() {
                if glyph.cluster < last.cluster {
                    let (start, end) = run_of(&self.out, self.out.len() - 1);
                    self.out[start..end]
                        .iter_mut()
                        .for_each(|other| put_into(other, glyph.cluster, glyph.mask));
                }
            } else if self.input.len() > 1 {
                self.merge(0, 2);
            }
        }
        self.input.remove(0);
        self.idx += 1;
    }

    /// The ends of a flag call's range.
    fn span(&self, start: Option<usize>, end: Option<usize>) -> (usize, usize) {
        (
            start.unwrap_or(0),
            end.unwrap_or(self.len()).min(self.len()),
        )
    }

    fn is_input_range(&self, (start, end): (usize, usize)) -> bool {
        start <= end && end <= self.len() && (!self.open || self.idx <= start)
    }

    fn is_sides_range(&self, (start, end): (usize, usize)) -> bool {
        if self.open {
            start <= self.out.len() && self.idx <= end
        } else {
            start <= end
        }
    }

    fn may_be_made(&self, call: &Call) -> bool {
        match *call {
            Call::ClearOutput => !self.open,
            Call::NextGlyph | Call::SkipGlyph => self.left() >= 1,
            Call::NextGlyphs(n) => self.left() >= n,
            Call::ReplaceGlyph(_) | Call::CopyGlyph | Call::DeleteGlyph => {
                self.open && self.left() >= 1
            }
            Call::ReplaceGlyphs(taken, put, ids) => {
                self.open && self.left() >= taken.max(1) && put <= ids.len()
            }
            Call::OutputGlyph(_) | Call::OutputInfo(_) | Call::Sync => self.open,
            Call::MoveTo(i) => i <= self.out.len() + self.input.len(),
            Call::MergeClusters(start, end) | Call::MergeGraphemeClusters(start, end) => {
                self.is_input_range((start, end))
            }
            Call::MergeOutClusters(start, end) => {
                self.open && start <= end && end <= self.out.len()
            }
            Call::UnsafeToBreak(start, end)
            | Call::SafeToInsertTatweel(start, end)
            | Call::UnsafeToConcat(start, end) => self.is_input_range(self.span(start, end)),
            Call::UnsafeToBreakFromOutbuffer(start, end)
            | Call::UnsafeToConcatFromOutbuffer(start, end) => {
                self.is_sides_range(self.span(start, end))
            }
            _ => unreachable!("a call that the model lacks"),
        }
    }

    pub fn make(&mut self, call: &Call) -> Answer {
        if !self.may_be_made(call) {
            return Answer::Outside;
        }
        match *call {
            Call::ClearOutput => (self.open, self.idx) = (true, 0),
            Call::NextGlyph => self.next(1),
            Call::NextGlyphs(n) => self.next(n),
            Call::SkipGlyph => self.skip(1),
            Call::ReplaceGlyph(id) => {
                self.out.push(Glyph {
                    id,
                    ..self.input[0]
                });
                self.skip(1);
            }
            Call::ReplaceGlyphs(taken, put, ids) => {
                let len = self.out.len();
                self.merge(len, len + taken);
                let glyph = self.input[0];
                self.out
                    .extend(ids[..put].iter().map(|&id| Glyph { id, ..glyph }));
                self.skip(taken);
            }
            Call::OutputGlyph(id) => {
                if let Some(&glyph) = self.input.first().or(self.out.last()) {
                    self.out.push(Glyph { id, ..glyph });
                }
            }
            Call::OutputInfo(info) => self.out.push(Glyph::from(&info)),
            Call::CopyGlyph => self.out.push(self.input[0]),
            Call::MoveTo(i) => self.move_to(i),
            Call::Sync => {
                self.input = self.joined();
                self.out.clear();
                (self.open, self.idx) = (false, 0);
            }
            Call::DeleteGlyph => self.delete(),
            _ => self.change(call),
        }
        Answer::Done
    }

    /// The calls that merge and mark.
    fn change(&mut self, call: &Call) {
        match *call {
            Call::MergeClusters(start, end) => self.merge(self.place(start), self.place(end)),
            Call::MergeOutClusters(start, end) if !self.marks_in_place_of_merging() => {
                self.join(start, end, 0);
            }
            Call::MergeGraphemeClusters(start, end) if end - start >= 2 => {
                if self.level == 1 || self.level == 2 {
                    self.change(&Call::UnsafeToBreak(Some(start), Some(end)));
                } else {
                    self.join(self.place(start), self.place(end), self.floor());
                }
            }
            Call::UnsafeToBreak(start, end) => self.plain_scan(self.span(start, end), BREAK),
            Call::SafeToInsertTatweel(start, end) => {
                let asked = self
                    .flags
                    .contains(BufferFlags::PRODUCE_SAFE_TO_INSERT_TATWEEL);
                self.plain_scan(self.span(start, end), if asked { TATWEEL } else { BREAK });
            }
            Call::UnsafeToBreakFromOutbuffer(start, end) => {
                let parts = self.parts(self.span(start, end));
                self.scan(&parts, BREAK);
            }
            Call::UnsafeToConcat(start, end) => {
                let (start, end) = self.span(start, end);
                self.mark_all(&[(self.place(start), self.place(end))]);
            }
            Call::UnsafeToConcatFromOutbuffer(start, end) => {
                let parts = self.parts(self.span(start, end));
                self.mark_all(&parts);
            }
            _ => {}
        }
    }

    fn plain_scan(&mut self, (start, end): (usize, usize), bits: u32) {
        if end - start >= 2 {
            self.scan(&[(self.place(start), self.place(end))], bits);
        }
    }

    /// The part of a range on each side.
    fn parts(&self, (start, end): (usize, usize)) -> Vec<(usize, usize)> {
        let len = self.out.len();
        if self.open {
            vec![(start, len), (len, self.place(end))]
        } else {
            vec![(start, end)]
        }
    }

    fn mark_all(&mut self, parts: &[(usize, usize)]) {
        if !self.flags.contains(BufferFlags::PRODUCE_UNSAFE_TO_CONCAT) {
            return;
        }
        let mut list = self.joined();
        parts
            .iter()
            .flat_map(|&(start, end)| start..end)
            .for_each(|i| list[i].mask |= CONCAT);
        self.set_joined(list);
    }

    fn next(&mut self, n: usize) {
        if self.open {
            self.out.extend(self.input.drain(..n));
        }
        self.idx += n;
    }

    fn skip(&mut self, n: usize) {
        if self.open {
            self.input.drain(..n);
        }
        self.idx += n;
    }

    fn move_to(&mut self, i: usize) {
        if !self.open {
            self.idx = i;
            return;
        }
        let (list, len) = (self.joined(), self.out.len());
        self.idx = (self.idx + i).saturating_sub(len);
        (self.out, self.input) = (list[..i].to_vec(), list[i..].to_vec());
    }
}
