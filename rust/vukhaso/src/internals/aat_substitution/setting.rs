// Written by tools/plain_rust from crates/aat_substitution. Do not edit.

//! A subtable as it is applied to a text.

use crate::aat_substitution::chain_flags::ChainFlags;
use crate::aat_tables::{StateTable, Subtable};
use crate::font_tables::gdef::Gdef;

/// The flag of an entry that says that the next state is at the same glyph.
pub(crate) const DONT_ADVANCE: u16 = 0x4000;

/// Where a subtable is applied: in the parts of the text in which one of its flags is on.
#[derive(Clone, Copy, Debug)]
pub(crate) struct Reach<'a> {
    /// The flags of chains in the parts of the text.
    pub flags: &'a ChainFlags,
    /// The number of the chain.
    pub chain: usize,
    /// The subtable.
    pub subtable: &'a Subtable<'a>,
}

impl Reach<'_> {
    /// Whether the text has several parts, so that it is asked of each glyph in which it is.
    pub(crate) fn is_parted(&self) -> bool {
        self.flags.part_count() > 1
    }

    /// Whether the subtable is applied in a part.
    pub(crate) fn reaches(&self, part: usize) -> bool {
        self.flags.flags(self.chain, part) & self.subtable.flags != 0
    }
}

/// A subtable with a state table, and where it is applied.
#[derive(Clone, Copy, Debug)]
pub(crate) struct Setting<'a> {
    /// The state table.
    pub machine: StateTable<'a>,
    /// Where it is applied.
    pub reach: Reach<'a>,
    /// The classes of the font's glyphs.
    pub gdef: &'a Gdef<'a>,
}
