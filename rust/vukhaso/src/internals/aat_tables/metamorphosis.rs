// Written by tools/plain_rust from crates/aat_tables. Do not edit.

//! The table `morx`: chains of subtables, each of which substitutes glyphs, and the features that turn them on (Apple's TrueType
//! Reference Manual, "The 'morx' table").

use crate::aat_tables::lookup::Lookup;
use crate::aat_tables::state_table::StateTable;
use crate::font_tables::bytes::{part, tail, u16_at, u32_at};
use crate::glyph_digests::Digest;
use crate::memory::{AllocError, Vec};

/// How many bytes the header of a chain has.
const CHAIN_HEADER: usize = 16;

/// How many bytes a feature of a chain has.
const FEATURE_SIZE: usize = 12;

/// How many bytes the header of a subtable has.
const SUBTABLE_HEADER: usize = 12;

/// What a subtable does.
#[derive(Clone, Copy, PartialEq, Eq, Debug)]
pub enum SubtableKind {
    /// It puts glyphs in another order.
    Rearrangement,
    /// It puts another glyph in the place of a glyph beside others.
    Contextual,
    /// It makes ligatures.
    Ligature,
    /// It puts another glyph in the place of each glyph.
    Noncontextual,
    /// It puts glyphs in.
    Insertion,
}

impl SubtableKind {
    /// The kind of a number.
    fn of(number: u32) -> Option<Self> {
        match number {
            0 => Some(SubtableKind::Rearrangement),
            1 => Some(SubtableKind::Contextual),
            2 => Some(SubtableKind::Ligature),
            4 => Some(SubtableKind::Noncontextual),
            5 => Some(SubtableKind::Insertion),
            _ => None,
        }
    }

    /// How many numbers an entry of its state table has beside its state and its flags.
    ///
    /// # Proved
    ///
    /// That it returns.
    #[inline]
    pub fn data_count(self) -> u8 {
        match self {
            SubtableKind::Rearrangement | SubtableKind::Noncontextual => 0,
            SubtableKind::Ligature => 1,
            SubtableKind::Contextual | SubtableKind::Insertion => 2,
        }
    }
}

/// A subtable.
#[derive(Clone, Copy, Debug)]
pub struct Subtable<'a> {
    /// What it does.
    pub kind: SubtableKind,
    /// For which lines it is, and in which order it goes over glyphs.
    pub coverage: SubtableCoverage,
    /// It is applied where one of these flags is on.
    pub flags: u32,
    /// Its bytes behind its header, up to the end of the table: what it leads to may stand behind it.
    pub table: &'a [u8],
    /// The digest of the glyphs that its state table knows.
    pub digest: Digest,
}

/// For which lines a subtable is, and in which order it goes over glyphs.
#[derive(Clone, Copy, PartialEq, Eq, Debug)]
pub struct SubtableCoverage {
    /// It is for vertical lines, and else for horizontal ones.
    pub is_vertical: bool,
    /// It goes over the glyphs in the other order.
    pub is_backwards: bool,
    /// It is for lines of both kinds.
    pub all_directions: bool,
    /// It goes in the order of the characters, and not in that of the line.
    pub is_logical: bool,
}

impl SubtableCoverage {
    /// The coverage of its bits.
    fn of(bits: u32) -> Self {
        SubtableCoverage {
            is_vertical: bits & 0x8000_0000 != 0,
            is_backwards: bits & 0x4000_0000 != 0,
            all_directions: bits & 0x2000_0000 != 0,
            is_logical: bits & 0x1000_0000 != 0,
        }
    }
}

/// What a setting of a feature does to the flags of a chain.
#[derive(Clone, Copy, PartialEq, Eq, Debug)]
pub struct ChainFeature {
    /// The type of the feature.
    pub kind: u16,
    /// The setting.
    pub setting: u16,
    /// The flags that it turns on.
    pub enable: u32,
    /// The flags that it leaves on.
    pub disable: u32,
}

/// A chain: subtables that are applied one after the other.
#[derive(Clone, Copy, Debug)]
pub struct Chain<'a> {
    /// The flags that are on where no feature changes them.
    pub default_flags: u32,
    /// Its features, twelve bytes each.
    pub features: &'a [u8],
    /// The first of its subtables in `Metamorphosis::subtables`.
    pub first: usize,
    /// Where its subtables end there.
    pub last: usize,
}

impl Chain<'_> {
    /// The feature in a row; `None` where there is none.
    ///
    /// # Proved
    ///
    /// ```text
    /// ensures { result ≡ feature_at self.now.features.now row }
    /// ```
    #[inline]
    pub fn feature(&self, row: usize) -> Option<ChainFeature> {
        if row >= self.feature_count() {
            return None;
        }
        let at = FEATURE_SIZE * row;
        Some(ChainFeature {
            kind: u16_at(self.features, at)?,
            setting: u16_at(self.features, at + 2)?,
            enable: u32_at(self.features, at + 4)?,
            disable: u32_at(self.features, at + 8)?,
        })
    }

    /// How many features there are.
    ///
    /// # Proved
    ///
    /// ```text
    /// ensures { result ≡ feature_count self.now.features.now }
    /// ```
    #[inline]
    pub fn feature_count(&self) -> usize {
        self.features.len() / FEATURE_SIZE
    }
}

/// The chains of a table `morx`, which is read once. A table of which a chain or a subtable is cut short has none.
#[derive(Debug)]
pub struct Metamorphosis<'a> {
    /// The chains.
    pub chains: Vec<Chain<'a>>,
    /// Their subtables.
    pub subtables: Vec<Subtable<'a>>,
    /// How many glyphs the font has.
    pub glyph_count: u16,
    /// How many rows of classes may still be read.
    room: usize,
}

impl<'a> Metamorphosis<'a> {
    /// The chains of a table, of a font with so many glyphs.
    ///
    /// # Errors
    ///
    /// `Err` where memory runs out.
    ///
    /// # Proved
    ///
    /// ```text
    /// ensures chains { IfOk result (λ read. read_chains read.subtables.items read.chains.items ≡ chains_of table.now) }
    /// ensures glyphs { IfOk result (λ read. read.glyph_count ≡ glyph_count) }
    /// ```
    #[inline]
    pub fn new(table: &'a [u8], glyph_count: u16) -> Result<Self, AllocError> {
        let mut read = Metamorphosis {
            chains: Vec::new(),
            subtables: Vec::new(),
            glyph_count,
            room: table.len().saturating_mul(64),
        };
        if !read.read_all(table)? {
            read.chains.clear();
            read.subtables.clear();
        }
        Ok(read)
    }

    /// Whether the font substitutes glyphs by the table.
    ///
    /// # Proved
    ///
    /// That it returns.
    #[inline]
    pub fn is_there(&self) -> bool {
        !self.chains.is_empty()
    }

    /// The subtables of a chain, one after the other.
    ///
    /// # Proved
    ///
    /// ```text
    /// ensures { chain.now.first ≤ chain.now.last → chain.now.last ≤ length self.now.subtables.items
    ///     → result.now ≡ slice_range self.now.subtables.items chain.now.first chain.now.last }
    /// ```
    #[inline]
    pub fn subtables_of(&self, chain: &Chain) -> &[Subtable<'a>] {
        if chain.first <= chain.last && chain.last <= self.subtables.len() {
            &self.subtables[chain.first..chain.last]
        } else {
            &[]
        }
    }

    /// Reads the chains. The answer is false where one is cut short.
    ///
    /// # Requires
    ///
    /// - `subtables: self.now.subtables.items ≡ []`
    /// - `chains: self.now.chains.items ≡ []`
    fn read_all(&mut self, table: &'a [u8]) -> Result<bool, AllocError> {
        if u16_at(table, 0).unwrap_or(0) == 0 {
            return Ok(false);
        }
        let count = number_or_0(table, 4);
        let mut rest = tail(table, 8);
        for _chain in 0..count {
            match self.read_chain(rest)? {
                Some(length) => rest = tail(rest, length),
                None => return Ok(false),
            }
        }
        Ok(true)
    }

    /// Reads the chain at the start of these bytes: how many it has, or `None` where it is cut short.
    ///
    /// # Requires
    ///
    /// - `AreWithin (length self.now.subtables.items) self.now.chains.items`
    fn read_chain(&mut self, rest: &'a [u8]) -> Result<Option<usize>, AllocError> {
        let length = number_or_0(rest, 4) as usize;
        let feature_count = number_or_0(rest, 8) as usize;
        let start = CHAIN_HEADER + FEATURE_SIZE * feature_count;
        if length < CHAIN_HEADER || length > rest.len() || start > length {
            return Ok(None);
        }
        let first = self.subtables.len();
        let count = number_or_0(rest, 12);
        if !self.read_subtables(tail(rest, start), length - start, count)? {
            return Ok(None);
        }
        self.chains.push(Chain {
            default_flags: number_or_0(rest, 0),
            features: part(rest, CHAIN_HEADER, FEATURE_SIZE * feature_count),
            first,
            last: self.subtables.len(),
        })?;
        Ok(Some(length))
    }

    /// Reads so many subtables at the start of these bytes, of which so many belong to the chain. The
    /// answer is false where one is cut short.
    fn read_subtables(
        &mut self,
        start: &'a [u8],
        within: usize,
        count: u32,
    ) -> Result<bool, AllocError> {
        let mut rest = start;
        let mut left = within;
        for _subtable in 0..count {
            let length = number_or_0(rest, 0) as usize;
            if length < SUBTABLE_HEADER || length > left {
                return Ok(false);
            }
            self.read_subtable(rest)?;
            left -= length;
            rest = tail(rest, length);
        }
        Ok(true)
    }

    /// Reads the subtable at the start of these bytes. One of a kind that is not known is passed over.
    fn read_subtable(&mut self, start: &'a [u8]) -> Result<(), AllocError> {
        let bits = number_or_0(start, 4);
        let Some(kind) = SubtableKind::of(bits % 256) else {
            return Ok(());
        };
        let table = tail(start, SUBTABLE_HEADER);
        let digest = self.digest_of(kind, table);
        self.subtables.push(Subtable {
            kind,
            coverage: SubtableCoverage::of(bits),
            flags: number_or_0(start, 8),
            table,
            digest,
        })?;
        Ok(())
    }

    /// The digest of the glyphs that a subtable's state table knows: of all glyphs where too much was read
    /// already.
    fn digest_of(&mut self, kind: SubtableKind, table: &'a [u8]) -> Digest {
        let machine = StateTable::new(table, self.glyph_count, kind.data_count());
        match machine {
            Some(machine) if kind != SubtableKind::Noncontextual => {
                self.digest_of_classes(&machine.classes)
            }
            _ => Digest::full(),
        }
    }

    /// The digest of the glyphs that classes know: of all glyphs where too much was read already.
    fn digest_of_classes(&mut self, classes: &Lookup) -> Digest {
        let cost = classes.cost();
        if cost > self.room {
            return Digest::full();
        }
        self.room -= cost;
        classes.digest()
    }
}

/// A number of 32 bits, or 0 where the table is cut short.
fn number_or_0(table: &[u8], at: usize) -> u32 {
    u32_at(table, at).unwrap_or(0)
}
