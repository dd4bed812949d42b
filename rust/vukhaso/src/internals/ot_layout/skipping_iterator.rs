// Written by tools/plain_rust from crates/ot_layout. Do not edit.

//! The iterator of a lookup over glyphs: which it passes over, and which it may pass over, as HarfBuzz's iterator
//! `skipping_iterator_t` decides it.

use crate::glyph::hb_glyph_info_t;
use crate::ot_layout::matcher::Matcher;
use crate::ot_lookups::lookup_props::LookupProps;

/// The bits of the Unicode properties that hold the general category.
const GENERAL_CATEGORY: u16 = 0x001F;

/// The general category of format characters.
const FORMAT: u16 = 1;

/// The Unicode property of a character that is invisible by default.
const IGNORABLE: u16 = 0x0020;

/// The Unicode property of a character that stays hidden where others are passed over.
const HIDDEN: u16 = 0x0040;

/// The Unicode property of the zero width joiner, among format characters.
const ZWJ: u16 = 0x0100;

/// The Unicode property of the zero width non-joiner, among format characters.
const ZWNJ: u16 = 0x0200;

/// The property of a glyph that came by a substitution.
const SUBSTITUTED: u16 = 0x0010;

/// How the lookup of a feature is applied.
#[derive(Clone, Copy, Debug)]
pub struct LookupOptions {
    /// The feature's bits: the lookup is for glyphs whose mask has one of them.
    pub mask: u32,
    /// Whether a zero width non-joiner between glyphs is passed over in a context.
    pub auto_zwnj: bool,
    /// Whether a zero width joiner between glyphs is passed over.
    pub auto_zwj: bool,
    /// Whether all glyphs of a match are of one syllable.
    pub per_syllable: bool,
    /// Whether alternates are chosen at random.
    pub random: bool,
}

/// What a walk does at a glyph.
#[derive(Clone, Copy, PartialEq, Eq, Debug)]
pub enum Skip {
    /// The glyph counts.
    No,
    /// The glyph counts if it is what is asked for, and is passed over else: it is invisible.
    Maybe,
    /// The glyph is passed over.
    Yes,
}

/// Where a walk ends.
#[derive(Clone, Copy, PartialEq, Eq, Debug)]
pub enum Found {
    /// At the glyph of this place, which is what is asked for.
    At(usize),
    /// At the glyph of this place, which counts and is not what is asked for.
    Other(usize),
    /// Behind the last glyph, or before the first: all were passed over.
    End,
}

/// An iterator over glyphs.
#[derive(Clone, Copy, Debug)]
pub struct SkippingIterator<'a> {
    /// What is passed over by the lookup's flag.
    pub lookup_props: LookupProps<'a>,
    /// The features' bits: a glyph whose mask has none of them is not what is asked for.
    pub mask: u32,
    /// Whether a zero width non-joiner may be passed over.
    pub ignores_zwnj: bool,
    /// Whether a zero width joiner may be passed over.
    pub ignores_zwj: bool,
    /// Whether what is hidden, as the combining grapheme joiner, may be passed over.
    pub ignores_hidden: bool,
    /// The syllable of which a glyph has to be, or 0 for any.
    pub syllable: u8,
}

impl<'a> SkippingIterator<'a> {
    /// The iterator over the glyphs that a lookup changes or positions.
    ///
    /// # Proved
    ///
    /// ```text
    /// ensures { result ≡ over_input lookup_props.entry options.now is_positioning }
    /// ```
    #[inline]
    pub fn over_input(
        lookup_props: LookupProps<'a>,
        options: &LookupOptions,
        is_positioning: bool,
    ) -> Self {
        SkippingIterator {
            lookup_props,
            mask: options.mask,
            ignores_zwnj: is_positioning,
            ignores_zwj: options.auto_zwj,
            ignores_hidden: is_positioning,
            syllable: 0,
        }
    }

    /// The iterator over the glyphs around them.
    ///
    /// # Proved
    ///
    /// ```text
    /// ensures { result ≡ over_context lookup_props.entry options.now is_positioning }
    /// ```
    #[inline]
    pub fn over_context(
        lookup_props: LookupProps<'a>,
        options: &LookupOptions,
        is_positioning: bool,
    ) -> Self {
        SkippingIterator {
            lookup_props,
            mask: u32::MAX,
            ignores_zwnj: is_positioning || options.auto_zwnj,
            ignores_zwj: true,
            ignores_hidden: is_positioning,
            syllable: 0,
        }
    }

    /// What the iterator does at a glyph (HarfBuzz, `may_skip`).
    ///
    /// # Proved
    ///
    /// ```text
    /// ensures { result ≡ skip_of self.now glyph.now }
    /// ```
    #[inline]
    pub fn skip(&self, glyph: &hb_glyph_info_t) -> Skip {
        if self.lookup_props.passes_over(glyph) {
            Skip::Yes
        } else if self.may_ignore(glyph.unicode_props(), glyph.glyph_props()) {
            Skip::Maybe
        } else {
            Skip::No
        }
    }

    /// Whether a glyph with these properties is invisible, and of a kind that this iterator may pass over.
    /// One that was substituted is not invisible.
    #[inline(always)]
    fn may_ignore(&self, unicode: u16, glyph: u16) -> bool {
        unicode & IGNORABLE != 0
            && glyph & SUBSTITUTED == 0
            && (self.ignores_zwnj || !is_format_with(unicode, ZWNJ))
            && (self.ignores_zwj || !is_format_with(unicode, ZWJ))
            && (self.ignores_hidden || unicode & HIDDEN == 0)
    }

    /// Whether a glyph has one of the features' bits, and is of the syllable.
    ///
    /// # Proved
    ///
    /// ```text
    /// ensures { result ≡ is_within self.now glyph.now }
    /// ```
    #[inline]
    pub fn is_within(&self, glyph: &hb_glyph_info_t) -> bool {
        glyph.mask & self.mask != 0 && (self.syllable == 0 || self.syllable == glyph.syllable())
    }

    /// Whether the iterator goes on after a glyph when it looks for another one.
    ///
    /// # Proved
    ///
    /// ```text
    /// ensures { result ≡ passes self.now matcher.now glyph.now }
    /// ```
    #[inline]
    pub fn passes(&self, matcher: &Matcher, glyph: &hb_glyph_info_t) -> bool {
        self.lookup_props.passes_over(glyph)
            || self.may_ignore(glyph.unicode_props(), glyph.glyph_props())
                && !(self.is_within(glyph) && matcher.fits(glyph.glyph_id))
    }

    /// Whether a glyph at which the iterator stays is what is asked for.
    ///
    /// # Proved
    ///
    /// ```text
    /// ensures { result ≡ matches self.now matcher.now glyph.now }
    /// ```
    #[inline]
    pub fn matches(&self, matcher: &Matcher, glyph: &hb_glyph_info_t) -> bool {
        self.is_within(glyph) && (matcher.is_shown() || matcher.fits(glyph.glyph_id))
    }

    /// The next glyph after a place.
    ///
    /// # Requires
    ///
    /// - `place < length glyphs.now`
    ///
    /// # Proved
    ///
    /// ```text
    /// ensures is { result ≡ next_found self.now matcher.now glyphs.now place }
    /// ensures behind { IsBehind result place (length glyphs.now) }
    /// ```
    #[inline]
    pub fn next(&self, matcher: &Matcher, glyphs: &[hb_glyph_info_t], place: usize) -> Found {
        debug_assert!(place < glyphs.len());
        let next = self.first_kept(matcher, glyphs, place + 1);
        if next < glyphs.len() {
            self.found_at(matcher, glyphs, next)
        } else {
            Found::End
        }
    }

    /// The last glyph before a place.
    ///
    /// # Requires
    ///
    /// - `place ≤ length glyphs.now`
    ///
    /// # Proved
    ///
    /// ```text
    /// ensures is { result ≡ previous_found self.now matcher.now glyphs.now place }
    /// ensures before { IsBefore result place }
    /// ```
    #[inline]
    pub fn previous(&self, matcher: &Matcher, glyphs: &[hb_glyph_info_t], place: usize) -> Found {
        debug_assert!(place <= glyphs.len());
        let end = self.kept_before(matcher, glyphs, place);
        if end == 0 {
            Found::End
        } else {
            self.found_at(matcher, glyphs, end - 1)
        }
    }

    /// The answer of a walk that stays at a place.
    ///
    /// # Requires
    ///
    /// - `place < length glyphs.now`
    #[inline(always)]
    fn found_at(&self, matcher: &Matcher, glyphs: &[hb_glyph_info_t], place: usize) -> Found {
        debug_assert!(place < glyphs.len());
        if self.matches(matcher, &glyphs[place]) {
            Found::At(place)
        } else {
            Found::Other(place)
        }
    }

    /// The first place from this one on whose glyph is not passed over, or the number of glyphs.
    ///
    /// # Requires
    ///
    /// - `start ≤ length glyphs.now`
    #[inline(always)]
    fn first_kept(&self, matcher: &Matcher, glyphs: &[hb_glyph_info_t], start: usize) -> usize {
        debug_assert!(start <= glyphs.len());
        for place in start..glyphs.len() {
            if !self.passes(matcher, &glyphs[place]) {
                return place;
            }
        }
        glyphs.len()
    }

    /// Where one comes to going back from a place over the glyphs that are passed over: after one that is
    /// not, or to the start.
    ///
    /// # Requires
    ///
    /// - `place ≤ length glyphs.now`
    #[inline(always)]
    fn kept_before(&self, matcher: &Matcher, glyphs: &[hb_glyph_info_t], place: usize) -> usize {
        debug_assert!(place <= glyphs.len());
        let mut end = place;
        for _turn in 0..place {
            if end == 0 || !self.passes(matcher, &glyphs[end - 1]) {
                return end;
            }
            end -= 1;
        }
        end
    }
}

/// Whether these are the Unicode properties of a format character with this one.
fn is_format_with(unicode: u16, property: u16) -> bool {
    unicode & GENERAL_CATEGORY == FORMAT && unicode & property != 0
}
