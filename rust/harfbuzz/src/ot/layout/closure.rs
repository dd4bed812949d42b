//! The glyphs that lookups may make of a set of glyphs, of theirs, and so on.
//!
//! A lookup that a rule applies is asked only for the glyphs that may stand at its place in the rule, as HarfBuzz does.

use crate::face::hb_face_t;
use crate::ot::layout::collected::{Naming, covered, glyphs, list, tables};
use crate::ot::layout::glyphs::{EXTENSION, extended};
use crate::ot::layout::{GSUB, rules, table};
use crate::set::hb_set_t;
use crate::sfnt::{at_16, u16_at};
use std::collections::{BTreeSet, HashMap};
use std::ffi::c_uint;

/// How deep lookups may apply one another, how often lookups are asked, and how often all are gone over, as HarfBuzz allows.
const DEEPEST: u32 = 64;
const VISITS: u32 = 35_000;
const STAGES: u32 = 12;

pub type Glyphs = BTreeSet<u16>;

/// For which glyphs a lookup was asked, while there were so many in all.
#[derive(Default)]
struct Done {
    count: usize,
    glyphs: Glyphs,
}

pub struct Closure<'a> {
    lookups: &'a [u8],
    glyph_count: u32,
    /// What there was before the lookup.
    pub glyphs: Glyphs,
    /// What the lookup makes.
    output: Glyphs,
    visits: u32,
    levels: u32,
    done: HashMap<u16, Done>,
}

/// Whether a coverage has one of these glyphs.
pub fn meets(coverage: &[u8], glyphs: &Glyphs) -> bool {
    covered(coverage).into_iter().any(|(first, last)| first <= last && glyphs.range(first..=last).next().is_some())
}

/// Those of these glyphs that a coverage has.
pub fn within(coverage: &[u8], glyphs: &Glyphs) -> Glyphs {
    let ranges = covered(coverage).into_iter().filter(|(first, last)| first <= last);
    ranges.flat_map(|(first, last)| glyphs.range(first..=last)).copied().collect()
}

/// The subtables of a lookup, each with its kind.
fn subtables(lookups: &[u8], index: u16) -> impl Iterator<Item = (u16, &[u8])> {
    let lookup = if index < u16_at(lookups, 0) { at_16(lookups, 2 + 2 * usize::from(index)) } else { &[] };
    let kind = u16_at(lookup, 0);
    tables(lookup, 4).map(move |table| if kind == EXTENSION { extended(table) } else { (kind, table) })
}

impl<'a> Closure<'a> {
    fn new(lookups: &'a [u8], glyph_count: u32, glyphs: Glyphs) -> Self {
        Closure { lookups, glyph_count, glyphs, output: Glyphs::new(), visits: 0, levels: DEEPEST, done: HashMap::new() }
    }

    pub fn is_spent(&self) -> bool {
        self.visits > VISITS
    }

    /// Whether a lookup is still to be asked for these glyphs.
    fn visits(&mut self, index: u16, active: &Glyphs) -> bool {
        self.visits += 1;
        if self.visits > VISITS + 1 {
            return false;
        }
        let done = self.done.entry(index).or_default();
        if done.count != self.glyphs.len() {
            *done = Done { count: self.glyphs.len(), glyphs: Glyphs::new() };
        }
        if active.is_subset(&done.glyphs) {
            return false;
        }
        done.glyphs.extend(active);
        true
    }

    /// Adds what a lookup makes of the glyphs.
    fn lookup(&mut self, index: u16) {
        let active = self.glyphs.clone();
        if !self.visits(index, &active) {
            return;
        }
        self.apply(index, &active);
        let count = self.glyph_count;
        self.glyphs.extend(std::mem::take(&mut self.output).into_iter().filter(|glyph| u32::from(*glyph) < count));
    }

    fn apply(&mut self, index: u16, active: &Glyphs) {
        for (kind, subtable) in subtables(self.lookups, index) {
            match kind {
                5 => rules::context(self, subtable, active),
                6 => rules::chained_context(self, subtable, active),
                _ => self.substitution(kind, subtable, active),
            }
        }
    }

    /// Asks a lookup that a rule applies at a place. Where it may make another number of glyphs, the places from there to the end are
    /// those of any glyph from then on.
    pub fn nested(&mut self, index: u16, active: &Glyphs, any: &mut BTreeSet<usize>, (place, end): (usize, usize)) {
        if self.levels == 0 {
            return;
        }
        self.levels -= 1;
        if self.visits(index, active) {
            if subtables(self.lookups, index).any(|(kind, _)| matches!(kind, 2 | 4 | 5 | 6)) {
                any.extend(place..=end);
            }
            self.apply(index, active);
        }
        self.levels += 1;
    }

    fn substitution(&mut self, kind: u16, subtable: &[u8], active: &Glyphs) {
        let coverage = at_16(subtable, 2);
        let is_active = |(glyph, _): &(u16, _)| active.contains(glyph);
        match (kind, u16_at(subtable, 0)) {
            (1, 1) => self.shifted(coverage, u16_at(subtable, 4), active),
            (1, 2) => {
                let rows = glyphs(covered(coverage)).zip(list(subtable, 4, 0).0);
                self.output.extend(rows.filter(|(glyph, _)| active.contains(glyph)).map(|(_, made)| made));
            }
            (2 | 3, 1) => {
                let rows = glyphs(covered(coverage)).zip(tables(subtable, 4)).filter(is_active);
                self.output.extend(rows.flat_map(|(_, sequence)| list(sequence, 0, 0).0));
            }
            (4, 1) => {
                let rows = glyphs(covered(coverage)).zip(tables(subtable, 4)).filter(is_active);
                for ligature in rows.flat_map(|(_, set)| tables(set, 0)) {
                    if list(ligature, 2, 1).0.all(|glyph| self.glyphs.contains(&glyph)) {
                        self.output.insert(u16_at(ligature, 0));
                    }
                }
            }
            (8, 1) => self.reversed(subtable, active),
            _ => {}
        }
    }

    /// Glyphs moved by a number. A whole range that is moved into itself would go on and on: it is left.
    fn shifted(&mut self, coverage: &[u8], delta: u16, active: &Glyphs) {
        if glyphs(covered(coverage)).count() >= 0xFFFF {
            return;
        }
        let found = within(coverage, active);
        let (Some(&first), Some(&last)) = (found.first(), found.last()) else {
            return;
        };
        let is_inside = |glyph: u16| (first..=last).contains(&glyph.wrapping_add(delta));
        if found.len() == usize::from(last - first) + 1 && (is_inside(first) || is_inside(last)) {
            return;
        }
        self.output.extend(found.into_iter().map(|glyph| glyph.wrapping_add(delta)));
    }

    fn reversed(&mut self, subtable: &[u8], active: &Glyphs) {
        let coverage = at_16(subtable, 2);
        let naming = Naming::Coverage(subtable);
        let (before, at) = list(subtable, 4, 0);
        let (after, made) = list(subtable, at, 0);
        if !meets(coverage, &self.glyphs) || !before.chain(after).all(|offset| meets(naming.coverage(offset), &self.glyphs)) {
            return;
        }
        let rows = glyphs(covered(coverage)).zip(list(subtable, made, 0).0);
        self.output.extend(rows.filter(|(glyph, _)| active.contains(glyph)).map(|(_, made)| made));
    }
}

/// Closes a set of glyphs over lookups.
///
/// # Safety
///
/// `face` and `set` are alive, and nobody else uses the set.
unsafe fn close(face: *mut hb_face_t, set: *mut hb_set_t, lookups: &[u8], close: impl FnOnce(&mut Closure)) {
    // SAFETY: the caller's word.
    let (face, set) = unsafe { (&*face, &mut *set) };
    let glyphs = set.short_numbers().collect();
    let mut closure = Closure::new(lookups, face.glyph_count(), glyphs);
    close(&mut closure);
    closure.glyphs.into_iter().for_each(|glyph| set.add(glyph.into()));
}

#[unsafe(no_mangle)]
pub unsafe extern "C" fn hb_ot_layout_lookup_substitute_closure(face: *mut hb_face_t, lookup: c_uint, set: *mut hb_set_t) {
    let Ok(lookup) = u16::try_from(lookup) else {
        return;
    };
    // SAFETY: HarfBuzz's terms: a face and a set that are alive.
    unsafe { close(face, set, table(face, GSUB).lookups(), |closure| closure.lookup(lookup)) }
}

#[unsafe(no_mangle)]
pub unsafe extern "C" fn hb_ot_layout_lookups_substitute_closure(
    face: *mut hb_face_t,
    lookups: *const hb_set_t,
    set: *mut hb_set_t,
) {
    // SAFETY: HarfBuzz's terms: a face and a set that are alive, and a set of lookups or null.
    unsafe {
        let table = table(face, GSUB);
        let count = table.lookup_count() as u16;
        let wanted: Vec<u16> = match lookups.as_ref() {
            Some(lookups) => lookups.short_numbers().collect(),
            None => (0..count).collect(),
        };
        close(face, set, table.lookups(), |closure| {
            for _stage in 0..=STAGES + 1 {
                let before = closure.glyphs.len();
                closure.visits = 0;
                wanted.iter().for_each(|lookup| closure.lookup(*lookup));
                if closure.glyphs.len() == before {
                    break;
                }
            }
        });
    }
}
