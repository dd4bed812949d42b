// Written by tools/plain_rust from crates/ot_gpos. Do not edit.

//! What a subtable is given at a glyph.

use crate::ot_gpos_tables::instance::Instance;
use crate::ot_layout::skipping_iterator::SkippingIterator;
use crate::ot_lookups::lookup_list::{Lookup, LookupList};
use crate::ot_lookups::subtable::Subtable;

/// A font's lookups of `GPOS`, the size and the variations at which it is used, and who knows the points of its outlines.
#[derive(Debug)]
pub struct Setting<'a, P> {
    /// The lookups.
    pub list: &'a LookupList<'a>,
    /// The size and the variations.
    pub instance: Instance<'a>,
    /// The points of outlines.
    pub points: &'a P,
}

/// A subtable at a glyph.
#[derive(Clone, Copy, Debug)]
pub(crate) struct Turn<'a> {
    /// The lookup that the subtable is of.
    pub lookup: &'a Lookup<'a>,
    /// The subtable.
    pub subtable: &'a Subtable<'a>,
    /// The iterator over the glyphs that the lookup does not pass over.
    pub iterator: SkippingIterator<'a>,
    /// The size and the variations of the font.
    pub instance: &'a Instance<'a>,
    /// The place of the glyph.
    pub place: usize,
    /// The glyph's coverage index.
    pub index: u32,
}
