//! The glyphs that a lookup is about (OpenType specification, `GSUB`, `GPOS`, "OpenType Layout Common Table Formats").

use crate::face::hb_face_t;
use crate::ot::layout::glyphs::extended;
use crate::ot::layout::{GPOS, GSUB, table};
use crate::set::hb_set_t;
use crate::sfnt::{at_16, tail, u16_at};
use crate::types::hb_tag_t;
use std::ffi::c_uint;

/// How deep lookups may apply one another, as HarfBuzz allows.
const DEEPEST: u32 = 64;

/// Where a glyph stands in a lookup.
#[derive(Clone, Copy, PartialEq)]
enum Role {
    Before,
    Input,
    After,
    Output,
}

/// How the numbers of a rule name glyphs: by themselves, by a class of a table, or by the offset of a coverage.
#[derive(Clone, Copy)]
pub enum Naming<'a> {
    Glyph,
    Class(&'a [u8]),
    Coverage(&'a [u8]),
}

impl<'a> Naming<'a> {
    /// The coverage that an offset leads to; an empty one for 0, or where numbers are not offsets.
    pub fn coverage(self, offset: u16) -> &'a [u8] {
        match self {
            Naming::Coverage(base) if offset != 0 => tail(base, offset.into()),
            _ => &[],
        }
    }
}

#[derive(Default)]
struct Collected<'a> {
    lookups: &'a [u8],
    is_gsub: bool,
    wants_output: bool,
    visited: Vec<u16>,
    /// How many lookups apply this one: of these the output alone counts.
    depth: u32,
    before: Vec<(u16, u16)>,
    input: Vec<(u16, u16)>,
    after: Vec<(u16, u16)>,
    output: Vec<(u16, u16)>,
}

/// The numbers of a list whose count stands at a place, and the place behind it.
pub fn list(table: &[u8], at: usize, fewer: usize) -> (impl Iterator<Item = u16> + '_, usize) {
    let count = usize::from(u16_at(table, at)).saturating_sub(fewer);
    let numbers = tail(table, at + 2).chunks_exact(2).take(count);
    (numbers.map(|number| u16::from_be_bytes([number[0], number[1]])), at + 2 + 2 * count)
}

/// The tables of a list of offsets whose count stands at a place.
pub fn tables(table: &[u8], at: usize) -> impl Iterator<Item = &[u8]> {
    let offsets = tail(table, at + 2).chunks_exact(2).take(u16_at(table, at).into());
    offsets.enumerate().map(move |(place, _)| at_16(table, at + 2 + 2 * place))
}

/// The ranges of a table of coverage.
pub fn covered(coverage: &[u8]) -> Vec<(u16, u16)> {
    match u16_at(coverage, 0) {
        1 => list(coverage, 2, 0).0.map(|glyph| (glyph, glyph)).collect(),
        2 => ranges(coverage).map(|(range, _)| range).collect(),
        _ => Vec::new(),
    }
}

/// The ranges of a table, each with its number.
fn ranges(table: &[u8]) -> impl Iterator<Item = ((u16, u16), u16)> + '_ {
    let rows = tail(table, 4).chunks_exact(6).take(u16_at(table, 2).into());
    rows.map(|row| ((u16_at(row, 0), u16_at(row, 2)), u16_at(row, 4)))
}

/// The glyphs that a table of classes names, each with its class.
pub fn classified(classes: &[u8]) -> Vec<((u16, u16), u16)> {
    match u16_at(classes, 0) {
        1 => list(classes, 4, 0).0.zip(u16_at(classes, 2)..).map(|(class, glyph)| ((glyph, glyph), class)).collect(),
        2 => ranges(classes).collect(),
        _ => Vec::new(),
    }
}

pub fn glyphs(ranges: Vec<(u16, u16)>) -> impl Iterator<Item = u16> {
    ranges.into_iter().flat_map(|(first, last)| first..=last)
}

impl<'a> Collected<'a> {
    fn add(&mut self, role: Role, ranges: impl IntoIterator<Item = (u16, u16)>) {
        match role {
            Role::Output => self.output.extend(ranges),
            _ if self.depth > 0 => {}
            Role::Before => self.before.extend(ranges),
            Role::Input => self.input.extend(ranges),
            Role::After => self.after.extend(ranges),
        }
    }

    fn add_named(&mut self, role: Role, naming: Naming, numbers: impl Iterator<Item = u16>) {
        for number in numbers {
            match naming {
                Naming::Glyph => self.add(role, [(number, number)]),
                Naming::Class(classes) => {
                    let named = classified(classes).into_iter().filter(|(_, class)| *class == number);
                    self.add(role, named.map(|(range, _)| range));
                }
                Naming::Coverage(_) => self.add(role, covered(naming.coverage(number))),
            }
        }
    }

    fn lookup(&mut self, index: u16) {
        if index >= u16_at(self.lookups, 0) {
            return;
        }
        let lookup = at_16(self.lookups, 2 + 2 * usize::from(index));
        for subtable in tables(lookup, 4) {
            let kind = u16_at(lookup, 0);
            let (kind, subtable) = match (self.is_gsub, kind) {
                (true, 7) | (false, 9) => extended(subtable),
                _ => (kind, subtable),
            };
            match (self.is_gsub, kind) {
                (true, 5) | (false, 7) => self.context(subtable),
                (true, 6) | (false, 8) => self.chained_context(subtable),
                (true, _) => self.substitution(kind, subtable),
                (false, _) => self.positioning(kind, subtable),
            }
        }
    }

    fn substitution(&mut self, kind: u16, subtable: &[u8]) {
        let coverage = covered(at_16(subtable, 2));
        self.add(Role::Input, coverage.iter().copied());
        let count = glyphs(coverage.clone()).count();
        match (kind, u16_at(subtable, 0)) {
            (1, 1) => {
                let delta = u16_at(subtable, 4);
                self.add(Role::Output, glyphs(coverage).map(|glyph| glyph.wrapping_add(delta)).map(|glyph| (glyph, glyph)));
            }
            (1, 2) => self.add_named(Role::Output, Naming::Glyph, list(subtable, 4, 0).0.take(count)),
            (2 | 3, 1) => {
                for sequence in tables(subtable, 4).take(count) {
                    self.add_named(Role::Output, Naming::Glyph, list(sequence, 0, 0).0);
                }
            }
            (4, 1) => {
                for ligature in tables(subtable, 4).take(count).flat_map(|set| tables(set, 0)) {
                    self.add_named(Role::Input, Naming::Glyph, list(ligature, 2, 1).0);
                    self.add_named(Role::Output, Naming::Glyph, std::iter::once(u16_at(ligature, 0)));
                }
            }
            (8, 1) => {
                let (before, at) = list(subtable, 4, 0);
                self.add_named(Role::Before, Naming::Coverage(subtable), before);
                let (after, at) = list(subtable, at, 0);
                self.add_named(Role::After, Naming::Coverage(subtable), after);
                self.add_named(Role::Output, Naming::Glyph, list(subtable, at, 0).0.take(count));
            }
            _ => {}
        }
    }

    fn positioning(&mut self, kind: u16, subtable: &[u8]) {
        self.add(Role::Input, covered(at_16(subtable, 2)));
        match (kind, u16_at(subtable, 0)) {
            (2, 1) => {
                let formats = u16_at(subtable, 4).count_ones() + u16_at(subtable, 6).count_ones();
                let size = 2 + 2 * formats as usize;
                for set in tables(subtable, 8) {
                    let pairs = tail(set, 2).chunks_exact(size).take(u16_at(set, 0).into());
                    self.add_named(Role::Input, Naming::Glyph, pairs.map(|pair| u16_at(pair, 0)));
                }
            }
            (2, 2) => {
                let second = classified(at_16(subtable, 10)).into_iter().filter(|(_, class)| *class != 0);
                self.add(Role::Input, second.map(|(range, _)| range));
            }
            (4..=6, 1) => self.add(Role::Input, covered(at_16(subtable, 4))),
            _ => {}
        }
    }

    fn context(&mut self, subtable: &[u8]) {
        let format = u16_at(subtable, 0);
        if format == 3 {
            let count = usize::from(u16_at(subtable, 2));
            let offsets = tail(subtable, 6).chunks_exact(2).take(count).map(|offset| u16_at(offset, 0));
            self.add_named(Role::Input, Naming::Coverage(subtable), offsets);
            return self.apply(tail(subtable, 6 + 2 * count), u16_at(subtable, 4));
        }
        let (naming, sets) = match format {
            1 => (Naming::Glyph, 4),
            2 => (Naming::Class(at_16(subtable, 4)), 6),
            _ => return,
        };
        self.add(Role::Input, covered(at_16(subtable, 2)));
        for rule in tables(subtable, sets).flat_map(|set| tables(set, 0)) {
            let count = usize::from(u16_at(rule, 0)).saturating_sub(1);
            self.add_named(Role::Input, naming, tail(rule, 4).chunks_exact(2).take(count).map(|number| u16_at(number, 0)));
            self.apply(tail(rule, 4 + 2 * count), u16_at(rule, 2));
        }
    }

    fn chained_context(&mut self, subtable: &[u8]) {
        match u16_at(subtable, 0) {
            1 => self.chained_rules(subtable, [Naming::Glyph; 3], 4),
            2 => self.chained_rules(subtable, [4, 6, 8].map(|at| Naming::Class(at_16(subtable, at))), 10),
            3 => self.chain(subtable, 2, [Naming::Coverage(subtable); 3], 0),
            _ => {}
        }
    }

    fn chained_rules(&mut self, subtable: &[u8], namings: [Naming; 3], sets: usize) {
        self.add(Role::Input, covered(at_16(subtable, 2)));
        for rule in tables(subtable, sets).flat_map(|set| tables(set, 0)) {
            self.chain(rule, 0, namings, 1);
        }
    }

    /// The glyphs of a rule from a place on, of whose input so many numbers are not said.
    fn chain(&mut self, rule: &[u8], at: usize, [before, input, after]: [Naming; 3], unsaid: usize) {
        let (numbers, at) = list(rule, at, 0);
        self.add_named(Role::Before, before, numbers);
        let (numbers, at) = list(rule, at, unsaid);
        self.add_named(Role::Input, input, numbers);
        let (numbers, at) = list(rule, at, 0);
        self.add_named(Role::After, after, numbers);
        self.apply(tail(rule, at + 2), u16_at(rule, at));
    }

    /// The lookups that a rule applies: what they put out counts.
    fn apply(&mut self, records: &[u8], count: u16) {
        for record in records.chunks_exact(4).take(count.into()) {
            let index = u16_at(record, 2);
            if self.is_gsub && self.wants_output && self.depth < DEEPEST && !self.visited.contains(&index) {
                self.depth += 1;
                self.lookup(index);
                self.depth -= 1;
                self.visited.push(index);
            }
        }
    }
}

#[unsafe(no_mangle)]
pub unsafe extern "C" fn hb_ot_layout_lookup_collect_glyphs(
    face: *mut hb_face_t,
    tag: hb_tag_t,
    index: c_uint,
    before: *mut hb_set_t,
    input: *mut hb_set_t,
    after: *mut hb_set_t,
    output: *mut hb_set_t,
) {
    if tag != GSUB && tag != GPOS {
        return;
    }
    // SAFETY: HarfBuzz's terms: a face that is alive.
    let lookups = unsafe { table(face, tag) }.lookups();
    let mut found = Collected { lookups, is_gsub: tag == GSUB, wants_output: !output.is_null(), ..Default::default() };
    if let Ok(index) = u16::try_from(index) {
        found.lookup(index);
    }
    for (set, ranges) in [(before, found.before), (input, found.input), (after, found.after), (output, found.output)] {
        // SAFETY: HarfBuzz's terms: sets that are alive, or null.
        if let Some(set) = unsafe { set.as_mut() } {
            ranges.into_iter().for_each(|(first, last)| set.add_range(first.into(), last.into()));
        }
    }
}
