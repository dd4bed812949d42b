// Written by tools/plain_rust from crates/ot_lookups. Do not edit.

//! Reads lookups and their subtables, as far as there is room.

use crate::font_tables::bytes::{part, table_at_16, tail, u16_at};
use crate::font_tables::class_definition::ClassDefinition;
use crate::font_tables::coverage::Coverage;
use crate::font_tables::gdef::Gdef;
use crate::glyph_digests::digest::Digest;
use crate::memory::{AllocError, Vec};
use crate::numbers::Chunks;
use crate::ot_lookups::known::{
    Known, Summed, known_at, make_room, quick_coverage, read_coverage, size_of, summed_of,
};
use crate::ot_lookups::lookup_list::{Lookup, POSITIONING_EXTENSION};
use crate::ot_lookups::lookup_props::LookupProps;
use crate::ot_lookups::reading::{
    count_at, coverage_numbers, has_next, quick_classes, summaries_of_all,
};
use crate::ot_lookups::seconds::seconds_of;
use crate::ot_lookups::subtable::{
    MAX_CONTEXT_LENGTH, NextAsked, Subtable, behind_extension, behind_list, table_or_empty,
};
use crate::ot_lookups::subtable_kind::{
    ContextFormat, PairFormat, SubtableKind, input_classes_at, kind_of,
};
use crate::ot_lookups::subtable_limit::subtable_count;

/// How many subtables room is made for before they are read.
const MOST_RESERVED: usize = 4096;

/// The bit of a lookup's flag that says that a set of marks follows the subtables.
const USE_MARK_FILTERING_SET: u16 = 0x0010;

/// Reads lookups, one after the other.
#[derive(Debug)]
pub(crate) struct LookupReader<'a> {
    /// The subtables that were read.
    pub(crate) subtables: Vec<Subtable<'a>>,
    /// The coverages of contexts by coverages.
    pub(crate) coverages: Vec<Coverage<'a>>,
    /// The kind of an extension.
    pub(crate) extension: u16,
    /// Whether more had to be read than there was room for.
    pub(crate) is_short: bool,
    /// How many bytes may still be read.
    room: usize,
    /// How many ligatures may still be read for their second glyphs.
    second_room: usize,
    /// The coverages that were read last.
    known: Vec<Known<'a>>,
}

impl<'a> LookupReader<'a> {
    /// A reader of a table that has read nothing.
    pub(crate) fn new(table: &[u8], extension: u16) -> Self {
        LookupReader {
            subtables: Vec::new(),
            coverages: Vec::new(),
            extension,
            is_short: false,
            room: table.len().saturating_mul(64),
            second_room: table.len(),
            known: Vec::new(),
        }
    }

    /// Makes room for so many subtables, as far as these are not too many.
    pub(crate) fn make_room(&mut self, subtables: usize) -> Result<(), AllocError> {
        self.subtables.reserve(subtables.min(MOST_RESERVED))?;
        make_room(&mut self.known, subtables)
    }

    /// Whether the table is `GPOS`.
    fn is_positioning(&self) -> bool {
        self.extension == POSITIONING_EXTENSION
    }

    /// Reads the subtables of a lookup.
    #[inline(always)]
    pub(crate) fn read_lookup(&mut self, table: &'a [u8]) -> Result<(), AllocError> {
        let lookup_type = u16_at(table, 0).unwrap_or(0);
        let count = subtable_count(table);
        if self.pay(2 * count) && self.has_one_type(lookup_type, table, count) {
            for index in 0..count {
                if let Some(subtable) = table_at_16(table, 6 + 2 * index) {
                    self.read_subtable(lookup_type, subtable)?;
                }
            }
        }
        Ok(())
    }

    /// A lookup, of which the subtables that were read begin with this one.
    #[inline(always)]
    pub(crate) fn lookup_of(&self, table: &[u8], first: usize, gdef: &Gdef<'a>) -> Lookup<'a> {
        let summaries = summaries_of_all(self.subtables_from(first));
        Lookup {
            lookup_type: u16_at(table, 0).unwrap_or(0),
            lookup_props: props_of(table, gdef),
            digest: summaries.digest,
            firsts: summaries.firsts,
            first,
            last: self.subtables.len(),
        }
    }

    /// The subtables from the one of this number on.
    fn subtables_from(&self, first: usize) -> &[Subtable<'a>] {
        if first <= self.subtables.len() {
            &self.subtables[first..]
        } else {
            &[]
        }
    }

    /// Whether the subtables of a lookup, so many, are no extensions, or of one type.
    ///
    /// # Requires
    ///
    /// - `count < 65536`
    fn has_one_type(&self, lookup_type: u16, table: &[u8], count: usize) -> bool {
        debug_assert!(count < 65536);
        if lookup_type != self.extension {
            return true;
        }
        let (first, _subtable) = behind_extension(table_or_empty(table, 6));
        for index in 0..count {
            let (lookup_type, _subtable) = behind_extension(table_or_empty(table, 6 + 2 * index));
            if lookup_type != first {
                return false;
            }
        }
        true
    }

    /// Reads a subtable, or that behind an extension, if its type has its format.
    #[inline(always)]
    fn read_subtable(&mut self, lookup_type: u16, table: &'a [u8]) -> Result<(), AllocError> {
        let (lookup_type, table) = if lookup_type == self.extension {
            behind_extension(table)
        } else {
            (lookup_type, table)
        };
        let format = u16_at(table, 0).unwrap_or(0);
        match kind_of(self.is_positioning(), lookup_type, format) {
            None => Ok(()),
            Some(
                kind @ (SubtableKind::Context(_)
                | SubtableKind::ChainedContext(_)
                | SubtableKind::ReverseSubstitution
                | SubtableKind::PairAdjustment(PairFormat::Classes)),
            ) => self.read_parsed(kind, table),
            Some(kind) => self.read_plain(kind, table),
        }
    }

    /// Reads a subtable of which nothing is parsed but its coverages, and the second glyphs of its
    /// ligatures.
    #[inline(always)]
    fn read_plain(&mut self, kind: SubtableKind, table: &'a [u8]) -> Result<(), AllocError> {
        let bases = self.bases_if(kind.attaches_marks(), table);
        let first = self.summed(table_or_empty(table, 2));
        let subtable = Subtable {
            kind,
            table,
            coverage: first.coverage,
            digest: first.summaries.digest,
            firsts: first.summaries.firsts,
            bases,
            classes: ClassDefinition::new(&[]),
            backtrack_classes: ClassDefinition::new(&[]),
            lookahead_classes: ClassDefinition::new(&[]),
            next: None,
            first_coverage: self.coverages.len(),
            seconds: self.seconds(kind, table),
        };
        self.add_subtable(subtable)
    }

    /// Reads a subtable that has classes, or coverages beside the one at its head. None of these has
    /// ligatures.
    fn read_parsed(&mut self, kind: SubtableKind, table: &'a [u8]) -> Result<(), AllocError> {
        let first_coverage = self.coverages.len();
        self.read_coverages(kind, table)?;
        let first = self.first_of(kind, table, first_coverage);
        let subtable = Subtable {
            kind,
            table,
            coverage: first.coverage,
            digest: first.summaries.digest,
            firsts: first.summaries.firsts,
            bases: Coverage::new(&[]),
            classes: self.input_classes(kind, table),
            backtrack_classes: self.backtrack_classes(kind, table),
            lookahead_classes: self.lookahead_classes(kind, table),
            next: self.next_asked(kind, table, first_coverage),
            first_coverage,
            seconds: None,
        };
        self.add_subtable(subtable)
    }

    /// Adds a subtable.
    ///
    /// # Requires
    ///
    /// - `IsNextOf self.old.coverages.items subtable`
    fn add_subtable(&mut self, subtable: Subtable<'a>) -> Result<(), AllocError> {
        self.subtables.push(subtable)?;
        Ok(())
    }

    /// Reads the coverages of a context by coverages, or around a reverse substitution.
    fn read_coverages(&mut self, kind: SubtableKind, table: &'a [u8]) -> Result<(), AllocError> {
        match kind {
            SubtableKind::Context(ContextFormat::Coverages) => {
                self.read_offsets(table, 6, u16_at(table, 2).unwrap_or(0))
            }
            SubtableKind::ChainedContext(ContextFormat::Coverages) => {
                let input = self.read_list(table, 2)?;
                let lookahead = self.read_list(table, input)?;
                let _records = self.read_list(table, lookahead)?;
                Ok(())
            }
            SubtableKind::ReverseSubstitution => {
                let lookahead = self.read_list(table, 4)?;
                let _substitutes = self.read_list(table, lookahead)?;
                Ok(())
            }
            _ => Ok(()),
        }
    }

    /// Reads the coverages of a list of offsets with their number before it, and says where it ends.
    fn read_list(&mut self, table: &'a [u8], at: usize) -> Result<usize, AllocError> {
        let count = u16_at(table, at).unwrap_or(0);
        if count > 0 {
            self.read_offsets(table, at.saturating_add(2), count)?;
        }
        Ok(behind_list(table, at))
    }

    /// Reads the coverages of so many offsets from a place on.
    fn read_offsets(&mut self, table: &'a [u8], at: usize, count: u16) -> Result<(), AllocError> {
        let count = usize::from(count);
        let listed = part(table, at, 2 * count);
        if listed.len() < 2 * count {
            return self.read_offsets_within(table, at, count);
        }
        let (offsets, _) = Chunks::<2>::split(listed);
        for offset in offsets {
            let coverage = self.coverage(behind_offset(table, *offset));
            self.coverages.push(coverage)?;
        }
        Ok(())
    }

    /// The same, where the list is cut short: an offset behind its end leads nowhere.
    #[inline(never)]
    fn read_offsets_within(
        &mut self,
        table: &'a [u8],
        at: usize,
        count: usize,
    ) -> Result<(), AllocError> {
        for index in 0..count {
            let coverage = self.coverage(table_or_empty(
                table,
                at.saturating_add(index.saturating_mul(2)),
            ));
            self.coverages.push(coverage)?;
        }
        Ok(())
    }

    /// The glyphs at the cursor: in a context by coverages the first of those of the input.
    fn first_of(&mut self, kind: SubtableKind, table: &'a [u8], first: usize) -> Summed<'a> {
        let input = match kind {
            SubtableKind::Context(ContextFormat::Coverages) => first,
            SubtableKind::ChainedContext(ContextFormat::Coverages) => {
                first.saturating_add(usize::from(u16_at(table, 2).unwrap_or(0)))
            }
            _ => return self.summed(table_or_empty(table, 2)),
        };
        let coverage = match self.coverages.get(input) {
            Some(coverage) => *coverage,
            None => Coverage::new(&[]),
        };
        let table = coverage.table;
        summed_of(&mut self.known, &self.subtables, table, size_of(table))
    }

    /// What a context by coverages asks of the glyph after the one at the cursor: the second coverage of
    /// the input, or where the input has one, the first after it.
    fn next_asked(
        &self,
        kind: SubtableKind,
        table: &'a [u8],
        first: usize,
    ) -> Option<NextAsked<'a>> {
        let (backtrack, input, lookahead) = coverage_numbers(kind, table)?;
        if usize::from(input) > MAX_CONTEXT_LENGTH || !has_next(input, lookahead) {
            return None;
        }
        let number = usize::from(backtrack) + usize::from(input.min(1));
        let coverage = self.coverages.get(first.saturating_add(number))?;
        Some(NextAsked::new(*coverage, input > 1))
    }

    /// The second glyphs of the ligatures of a subtable, if it has ligatures, each with a second glyph.
    #[inline(always)]
    fn seconds(&mut self, kind: SubtableKind, table: &[u8]) -> Option<Digest> {
        if kind != SubtableKind::LigatureSubstitution {
            return None;
        }
        seconds_of(table, &mut self.second_room)
    }

    /// The classes of the input.
    fn input_classes(&mut self, kind: SubtableKind, table: &'a [u8]) -> ClassDefinition<'a> {
        match input_classes_at(kind) {
            Some(at) => self.classes(table_or_empty(table, at)),
            None => ClassDefinition::new(&[]),
        }
    }

    /// The classes of what stands before the input.
    fn backtrack_classes(&mut self, kind: SubtableKind, table: &'a [u8]) -> ClassDefinition<'a> {
        match kind {
            SubtableKind::ChainedContext(ContextFormat::Classes) => {
                self.classes(table_or_empty(table, 4))
            }
            _ => ClassDefinition::new(&[]),
        }
    }

    /// The classes of what stands after the input.
    fn lookahead_classes(&mut self, kind: SubtableKind, table: &'a [u8]) -> ClassDefinition<'a> {
        match kind {
            SubtableKind::ChainedContext(ContextFormat::Classes) => {
                self.classes(table_or_empty(table, 8))
            }
            SubtableKind::PairAdjustment(PairFormat::Classes) => {
                self.classes(table_or_empty(table, 10))
            }
            _ => ClassDefinition::new(&[]),
        }
    }

    /// What marks are attached to, if there are any. It is not remembered: hardly any other subtable shares
    /// it.
    fn bases_if(&mut self, are_there: bool, table: &'a [u8]) -> Coverage<'a> {
        if !are_there {
            return Coverage::new(&[]);
        }
        let table = table_or_empty(table, 4);
        if self.pay(size_of(table)) {
            quick_coverage(table)
        } else {
            Coverage::new(&[])
        }
    }

    /// The coverage in these bytes, or one that covers nothing where there is no room, or it is slow to
    /// ask.
    #[inline(always)]
    fn coverage(&mut self, table: &'a [u8]) -> Coverage<'a> {
        if let Some(known) = known_at(&self.known, table) {
            if known.size <= self.room {
                self.room -= known.size;
                return known.coverage;
            }
        }
        self.read_coverage(table)
    }

    /// The same, where it is read.
    #[inline(never)]
    fn read_coverage(&mut self, table: &'a [u8]) -> Coverage<'a> {
        if self.pay(size_of(table)) {
            read_coverage(&mut self.known, table)
        } else {
            Coverage::new(&[])
        }
    }

    /// The same coverage, with the summaries of its glyphs.
    fn summed(&mut self, table: &'a [u8]) -> Summed<'a> {
        let size = size_of(table);
        if self.pay(size) {
            summed_of(&mut self.known, &self.subtables, table, size)
        } else {
            Summed::none()
        }
    }

    /// The classes in these bytes, or none where there is no room, or they are slow to ask.
    fn classes(&mut self, table: &'a [u8]) -> ClassDefinition<'a> {
        if self.pay_for_classes(table) {
            quick_classes(table)
        } else {
            ClassDefinition::new(&[])
        }
    }

    /// Whether a table of classes may be read: its ranges are gone through, and a list of classes is not.
    fn pay_for_classes(&mut self, table: &[u8]) -> bool {
        let size = if u16_at(table, 0) == Some(2) { 6 } else { 0 };
        self.pay(4 + size * count_at(table, 2))
    }

    /// Whether so many bytes may be read.
    fn pay(&mut self, bytes: usize) -> bool {
        if self.room < bytes {
            self.room = 0;
            self.is_short = true;
            return false;
        }
        self.room -= bytes;
        true
    }
}

/// The table that an offset leads to, or an empty one.
fn behind_offset(table: &[u8], offset: [u8; 2]) -> &[u8] {
    match u16::from_be_bytes(offset) {
        0 => &[],
        offset => tail(table, usize::from(offset)),
    }
}

/// What a lookup passes over.
#[inline(always)]
fn props_of<'a>(table: &[u8], gdef: &Gdef<'a>) -> LookupProps<'a> {
    let flags = u16_at(table, 2).unwrap_or(0);
    let marks = if flags & USE_MARK_FILTERING_SET != 0 {
        marks_of(table, gdef)
    } else {
        &[]
    };
    LookupProps {
        flags,
        marks: Coverage::new(marks),
    }
}

/// The mark filtering set of a lookup that has one: its number stands after the offsets of the
/// subtables.
#[inline(never)]
fn marks_of<'a>(table: &[u8], gdef: &Gdef<'a>) -> &'a [u8] {
    match u16_at(table, 6 + 2 * count_at(table, 4)) {
        Some(set) => gdef.mark_glyph_set(set).table,
        None => &[],
    }
}
