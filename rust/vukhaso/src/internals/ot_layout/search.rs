// Written by tools/plain_rust from crates/ot_layout. Do not edit.

//! What a search for a match is given, and what it leaves behind.

use crate::arrayvec::ArrayVec;
use crate::glyph::hb_glyph_info_t;
use crate::ot_layout::budget::Budget;
use crate::ot_layout::skipping_iterator::{LookupOptions, SkippingIterator};
use crate::ot_lookups::Lookup;

/// The places of the glyphs of a match, counted from the cursor: the first is 0.
pub type MatchPositions = ArrayVec<usize, 64>;

/// A lookup that is applied, and the iterators over the glyphs that it does not pass over, which are made once for it.
#[derive(Clone, Copy, Debug)]
pub struct LookupContext<'a> {
    /// The lookup.
    pub lookup: &'a Lookup<'a>,
    /// The iterator over the glyphs of a match.
    pub iterator: SkippingIterator<'a>,
    /// The iterator over the glyphs before and after a match.
    pub context: SkippingIterator<'a>,
}

impl<'a> LookupContext<'a> {
    /// A lookup that is applied by these options.
    ///
    /// # Proved
    ///
    /// ```text
    /// ensures lookup { result.lookup.now ≡ lookup.now }
    /// ensures made { IsMadeFor options.now is_positioning result }
    /// ```
    #[inline]
    pub fn new(lookup: &'a Lookup<'a>, options: &LookupOptions, is_positioning: bool) -> Self {
        LookupContext {
            lookup,
            iterator: SkippingIterator::over_input(lookup.lookup_props, options, is_positioning),
            context: SkippingIterator::over_context(lookup.lookup_props, options, is_positioning),
        }
    }
}

/// The glyphs on both sides of the cursor.
#[derive(Clone, Copy, Debug)]
pub struct ApplyContext<'a> {
    /// What stands before the cursor: what was put out, or in a pass in place the glyphs before it.
    pub out: &'a [hb_glyph_info_t],
    /// What is left, the glyph at the cursor first.
    pub input: &'a [hb_glyph_info_t],
    /// The iterator over the glyphs of a match.
    pub iterator: SkippingIterator<'a>,
    /// The iterator over the glyphs before and after a match.
    pub context: SkippingIterator<'a>,
    /// The syllable of which the glyphs have to be, or 0 for any.
    pub syllable: u8,
    /// Whether as many glyphs were put out as were read: then glyphs before the cursor have to be of the syllable too.
    pub is_level: bool,
}

impl<'a> ApplyContext<'a> {
    /// The iterator over the glyphs of a match.
    ///
    /// # Proved
    ///
    /// ```text
    /// ensures { result ≡ input_iterator self.now }
    /// ```
    #[inline]
    pub fn input_iterator(&self) -> SkippingIterator<'a> {
        SkippingIterator {
            syllable: self.syllable,
            ..self.iterator
        }
    }

    /// The iterator over the glyphs around a match, within the syllable or not.
    ///
    /// # Proved
    ///
    /// ```text
    /// ensures { result ≡ context_iterator self.now is_within }
    /// ```
    #[inline]
    pub fn context_iterator(&self, is_within: bool) -> SkippingIterator<'a> {
        let syllable = if is_within { self.syllable } else { 0 };
        SkippingIterator {
            syllable,
            ..self.context
        }
    }
}

/// How far glyphs were looked at: their change may change the result.
#[derive(Clone, Copy, PartialEq, Eq, Debug)]
pub struct Reach {
    /// The first glyph before the cursor, as its place in `out`.
    pub from: usize,
    /// Where the glyphs of the input end.
    pub to: usize,
}

impl Reach {
    /// The reach of a search that looked at nothing: from the end of what was put out to the cursor.
    ///
    /// # Proved
    ///
    /// ```text
    /// ensures { result ≡ record { from = out_len; to = 0 } }
    /// ```
    #[inline]
    pub fn none(out_len: usize) -> Self {
        Reach {
            from: out_len,
            to: 0,
        }
    }

    /// Takes in another reach.
    ///
    /// # Proved
    ///
    /// ```text
    /// ensures { self.new ≡ record { from = min self.old.from from; to = max self.old.to to } }
    /// ```
    #[inline]
    pub fn extend(&mut self, from: usize, to: usize) {
        self.from = self.from.min(from);
        self.to = self.to.max(to);
    }
}

/// What searches share: what they may cost, and what the last one found.
#[derive(Debug)]
pub struct Search {
    /// What is left to spend.
    pub budget: Budget,
    /// How far rules that did not fit had looked.
    pub reach: Reach,
    /// The places of the glyphs of the match.
    pub places: MatchPositions,
}

impl Search {
    /// A search that has found nothing.
    ///
    /// # Proved
    ///
    /// ```text
    /// ensures { result.budget ≡ budget }
    /// ```
    #[inline]
    pub fn new(budget: Budget) -> Self {
        Search {
            budget,
            reach: Reach::none(0),
            places: MatchPositions::new(),
        }
    }
}
