// Written by tools/plain_rust from crates/ot_contexts. Do not edit.

//! The glyphs of a match while lookups are applied to them: their places follow glyphs that are put in or taken out.

use crate::ot_layout::MatchPositions;

/// The place of this number after so many glyphs were put in after the glyph `number`: they are the
/// next glyphs of the match, and those after them move up.
///
/// # Requires
///
/// - `number: number < length places.now`
/// - `few: length places.now + added ≤ 64`
/// - `index: index < length places.now + added`
fn grown_place(places: &[usize], number: usize, added: usize, index: usize) -> usize {
    debug_assert!(number < places.len());
    debug_assert!(places.len() + added <= 64);
    debug_assert!(index < places.len() + added);
    if index <= number {
        places[index]
    } else if index <= number + added {
        places[number].saturating_add(index - number)
    } else {
        places[index - added].saturating_add(added)
    }
}

/// The places after so many glyphs were put in after the glyph `number`.
///
/// # Requires
///
/// - `number: number < length places.now`
/// - `few: length places.now + added ≤ 64`
fn grown(places: &[usize], number: usize, added: usize) -> MatchPositions {
    debug_assert!(number < places.len());
    debug_assert!(places.len() + added <= 64);
    let mut grown = MatchPositions::new();
    for index in 0..places.len() + added {
        grown.push(grown_place(places, number, added, index));
    }
    grown
}

/// The place of this number after so many glyphs of the match were taken out after the glyph `number`:
/// those after them move down.
///
/// # Requires
///
/// - `index + removed < length places.now`
fn shrunk_place(places: &[usize], number: usize, removed: usize, index: usize) -> usize {
    debug_assert!(index + removed < places.len());
    if index <= number {
        places[index]
    } else {
        places[index + removed].saturating_sub(removed)
    }
}

/// The places after so many glyphs of the match were taken out after the glyph `number`.
///
/// # Requires
///
/// - `removed: removed ≤ length places.now`
/// - `few: length places.now ≤ 64`
fn shrunk(places: &[usize], number: usize, removed: usize) -> MatchPositions {
    debug_assert!(removed <= places.len());
    debug_assert!(places.len() <= 64);
    let mut shrunk = MatchPositions::new();
    for index in 0..places.len() - removed {
        shrunk.push(shrunk_place(places, number, removed, index));
    }
    shrunk
}

/// The places, counted from so many glyphs before them.
///
/// # Requires
///
/// - `length places.now ≤ 64`
fn all_moved_up(places: &[usize], by: usize) -> MatchPositions {
    debug_assert!(places.len() <= 64);
    let mut moved = MatchPositions::new();
    for index in 0..places.len() {
        moved.push(places[index].saturating_add(by));
    }
    moved
}

/// The glyphs of a match, by their places in both sides as one list.
#[derive(Debug)]
pub struct Matched {
    /// The places of the glyphs.
    pub places: MatchPositions,
    /// Where the match ends.
    pub end: usize,
}

impl Matched {
    /// The match with these places and this end, counted from a cursor that so many glyphs stand before.
    ///
    /// # Proved
    ///
    /// ```text
    /// ensures { match_of result ≡ match_at before places.now.items end }
    /// ```
    #[inline]
    pub fn new(places: &MatchPositions, end: usize, before: usize) -> Self {
        Matched {
            places: all_moved_up(places.as_slice(), before),
            end: before.saturating_add(end),
        }
    }

    /// The place of the glyph of this number.
    ///
    /// # Proved
    ///
    /// ```text
    /// ensures { result ≡ slice_get self.now.places.items number }
    /// ```
    #[inline]
    pub fn place(&self, number: usize) -> Option<usize> {
        self.places.get(number).copied()
    }

    /// Whether the glyph of this number stands behind the end of the match.
    ///
    /// # Proved
    ///
    /// ```text
    /// ensures { result ≡ is_behind self.now.places.items self.now.end number }
    /// ```
    #[inline]
    pub fn is_behind(&self, number: usize) -> bool {
        match self.places.get(number) {
            Some(place) => *place >= self.end,
            None => false,
        }
    }

    /// Lets the places follow a lookup that was applied to the glyph of this number, where both sides had
    /// so many glyphs before and have so many after it. Where there would be more places than a match has,
    /// the answer is false.
    ///
    /// HarfBuzz takes it that glyphs were put in, or taken out, right after the one that the lookup was
    /// applied to.
    ///
    /// # Requires
    ///
    /// - `number < length self.old.places.items`
    ///
    /// # Proved
    ///
    /// ```text
    /// ensures follows { match_of self.new ≡ followed (match_of self.old) number before after }
    /// ensures on { result ≡ not (is_full (match_of self.old) before after) }
    /// ```
    #[inline]
    pub fn follow(&mut self, number: usize, before: usize, after: usize) -> bool {
        if after < before {
            self.shrink(number, before - after);
            return true;
        }
        self.grow(number, after - before)
    }

    /// Lets the places follow so many glyphs that were put in.
    ///
    /// # Requires
    ///
    /// - `number < length self.old.places.items`
    fn grow(&mut self, number: usize, added: usize) -> bool {
        self.end = self.end.saturating_add(added);
        if self.places.len() > 64 || added > 64 - self.places.len() {
            return false;
        }
        if added > 0 {
            self.places = grown(self.places.as_slice(), number, added);
        }
        true
    }

    /// Lets the places follow so many glyphs that were taken out. The end does not come before the glyph
    /// itself.
    ///
    /// # Requires
    ///
    /// - `number < length self.old.places.items`
    fn shrink(&mut self, number: usize, removed: usize) {
        let end = self.end.saturating_sub(removed).max(self.places[number]);
        let behind = self.places.len() - (number + 1);
        let taken = self.end.saturating_sub(end).min(behind);
        self.end = end;
        self.places = shrunk(self.places.as_slice(), number, taken);
    }
}
