//! The rules of contexts, as a closure of glyphs goes over them.

use crate::ot::layout::closure::{Closure, Glyphs, meets, within};
use crate::ot::layout::collected::{Naming, classified, covered, glyphs, list, tables};
use crate::sfnt::{at_16, tail, u16_at};
use std::collections::{BTreeMap, BTreeSet};

/// The glyphs of a set by their classes.
struct Classes {
    listed: BTreeMap<u16, Glyphs>,
    /// Those that the table does not list.
    others: Glyphs,
}

impl Classes {
    fn of(table: &[u8], glyphs: &Glyphs) -> Self {
        let mut classes = Classes { listed: BTreeMap::new(), others: glyphs.clone() };
        for ((first, last), class) in classified(table).into_iter().filter(|((first, last), _)| first <= last) {
            for glyph in glyphs.range(first..=last) {
                classes.listed.entry(class).or_default().insert(*glyph);
                classes.others.remove(glyph);
            }
        }
        classes
    }

    fn has(&self, class: u16) -> bool {
        self.listed.contains_key(&class) || class == 0 && !self.others.is_empty()
    }

    fn glyphs(&self, class: u16) -> Glyphs {
        if class == 0 { self.others.clone() } else { self.listed.get(&class).cloned().unwrap_or_default() }
    }
}

/// How the numbers of a rule name glyphs, with those of the closure that they name.
enum Names<'a> {
    Glyphs,
    Classes {
        /// Of all glyphs, before, at and behind the input.
        all: Box<[Classes; 3]>,
        /// Of those at the first place.
        first: Classes,
        /// The glyphs of each class, as a rule asked for them first: HarfBuzz keeps those for all rules of the subtable.
        kept: BTreeMap<u16, Glyphs>,
    },
    Coverages(&'a [u8]),
}

/// A rule: the numbers of what stands before, at and behind, without the first of the input, and the lookups that it applies.
struct Rule<'a> {
    sides: [Vec<u16>; 3],
    /// How many places the input has.
    count: usize,
    records: &'a [u8],
    record_count: u16,
}

impl<'a> Names<'a> {
    fn of_classes(closure: &Closure, tables: [&[u8]; 3], active: &Glyphs) -> Self {
        Names::Classes {
            all: Box::new(tables.map(|table| Classes::of(table, &closure.glyphs))),
            first: Classes::of(tables[1], active),
            kept: BTreeMap::new(),
        }
    }

    /// Whether one of the closure's glyphs has this number on a side of the input.
    fn has(&self, closure: &Closure, side: usize, number: u16) -> bool {
        match self {
            Names::Glyphs => closure.glyphs.contains(&number),
            Names::Classes { all, .. } => all[side].has(number),
            Names::Coverages(base) => meets(Naming::Coverage(base).coverage(number), &closure.glyphs),
        }
    }

    /// The glyphs at a place of a rule's input, whose first place has this number and these glyphs.
    fn at(&mut self, closure: &Closure, rule: &Rule, place: usize, (value, active): (u16, &Glyphs)) -> Glyphs {
        let number = if place == 0 { value } else { rule.sides[1].get(place - 1).copied().unwrap_or(0) };
        match self {
            Names::Glyphs => Glyphs::from([number]),
            Names::Classes { all, first, kept } => {
                let classes = if place == 0 { first } else { &all[1] };
                kept.entry(number).or_insert_with(|| classes.glyphs(number)).clone()
            }
            Names::Coverages(_) if place == 0 => active.clone(),
            Names::Coverages(base) => within(Naming::Coverage(base).coverage(number), &closure.glyphs),
        }
    }
}

/// Asks the lookups of a rule, where the closure has glyphs for all of its places.
fn apply(closure: &mut Closure, names: &mut Names, rule: &Rule, first: (u16, &Glyphs)) {
    let is_there = |side: usize, number: &u16| names.has(closure, side, *number);
    if closure.is_spent() || !(0..3).all(|side| rule.sides[side].iter().all(|number| is_there(side, number))) {
        return;
    }
    let end = rule.count + usize::from(matches!(names, Names::Coverages(_)));
    let mut any = BTreeSet::new();
    for record in rule.records.chunks_exact(4).take(rule.record_count.into()) {
        let place = usize::from(u16_at(record, 0));
        if place >= rule.count {
            continue;
        }
        let active = if any.insert(place) { names.at(closure, rule, place, first) } else { closure.glyphs.clone() };
        closure.nested(u16_at(record, 2), &active, &mut any, (place, end));
    }
}

/// A rule of a context, whose input begins at a place.
fn plain_rule(rule: &[u8]) -> Rule<'_> {
    let count = usize::from(u16_at(rule, 0));
    let unsaid = count.saturating_sub(1);
    let numbers = tail(rule, 4).chunks_exact(2).take(unsaid).map(|number| u16_at(number, 0));
    let sides = [Vec::new(), numbers.collect(), Vec::new()];
    Rule { sides, count, records: tail(rule, 4 + 2 * unsaid), record_count: u16_at(rule, 2) }
}

/// A rule of a chained context, from a place on, of whose input so many numbers are not said.
fn chained_rule(rule: &[u8], at: usize, unsaid: usize) -> Rule<'_> {
    let (before, at) = list(rule, at, 0);
    let count = usize::from(u16_at(rule, at));
    let (input, at) = list(rule, at, unsaid);
    let (after, at) = list(rule, at, 0);
    let input = input.skip(1 - unsaid);
    let sides = [before.collect(), input.collect(), after.collect()];
    Rule { sides, count, records: tail(rule, at + 2), record_count: u16_at(rule, at) }
}

/// The rules of a subtable by glyphs or by classes, whose sets stand at a place.
fn rule_sets<'a>(
    closure: &mut Closure,
    names: &mut Names,
    (subtable, sets): (&'a [u8], usize),
    active: &Glyphs,
    rule: impl Fn(&'a [u8]) -> Rule<'a>,
) {
    let here = within(at_16(subtable, 2), active);
    let numbers: Vec<u16> = match names {
        Names::Classes { .. } => (0..u16_at(subtable, sets)).collect(),
        _ => glyphs(covered(at_16(subtable, 2))).collect(),
    };
    for (value, set) in numbers.into_iter().zip(tables(subtable, sets)) {
        let is_there = match names {
            Names::Classes { first, .. } => first.has(value),
            _ => active.contains(&value),
        };
        if is_there {
            tables(set, 0).for_each(|table| apply(closure, names, &rule(table), (value, &here)));
        }
    }
}

pub fn context(closure: &mut Closure, subtable: &[u8], active: &Glyphs) {
    match u16_at(subtable, 0) {
        1 => rule_sets(closure, &mut Names::Glyphs, (subtable, 4), active, plain_rule),
        2 if meets(at_16(subtable, 2), &closure.glyphs) => {
            let classes = [&[], at_16(subtable, 4), &[]];
            let mut names = Names::of_classes(closure, classes, &within(at_16(subtable, 2), active));
            rule_sets(closure, &mut names, (subtable, 6), active, plain_rule);
        }
        3 if meets(at_16(subtable, 6), &closure.glyphs) => {
            let count = usize::from(u16_at(subtable, 2));
            let numbers = tail(subtable, 8).chunks_exact(2).take(count.saturating_sub(1)).map(|offset| u16_at(offset, 0));
            let sides = [Vec::new(), numbers.collect(), Vec::new()];
            let rule = Rule { sides, count, records: tail(subtable, 6 + 2 * count), record_count: u16_at(subtable, 4) };
            let here = within(at_16(subtable, 6), active);
            apply(closure, &mut Names::Coverages(subtable), &rule, (0, &here));
        }
        _ => {}
    }
}

pub fn chained_context(closure: &mut Closure, subtable: &[u8], active: &Glyphs) {
    match u16_at(subtable, 0) {
        1 => rule_sets(closure, &mut Names::Glyphs, (subtable, 4), active, |rule| chained_rule(rule, 0, 1)),
        2 if meets(at_16(subtable, 2), &closure.glyphs) => {
            let classes = [4, 6, 8].map(|at| at_16(subtable, at));
            let mut names = Names::of_classes(closure, classes, &within(at_16(subtable, 2), active));
            rule_sets(closure, &mut names, (subtable, 10), active, |rule| chained_rule(rule, 0, 1));
        }
        3 => {
            let input = at_16(subtable, 6 + 2 * usize::from(u16_at(subtable, 2)));
            if meets(input, &closure.glyphs) {
                let here = within(input, active);
                apply(closure, &mut Names::Coverages(subtable), &chained_rule(subtable, 2, 0), (0, &here));
            }
        }
        _ => {}
    }
}
