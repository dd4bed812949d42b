// Written by tools/plain_rust from crates/ot_contexts. Do not edit.

//! The next glyphs in the numbers of rules, found out once for all rules of a set.

use crate::glyph::hb_glyph_info_t;
use crate::ot_contexts::asked::{Asked, asked_at, asked_next};
use crate::ot_contexts::neighbours::{NO_GLYPH, Neighbours, Next};
use crate::ot_contexts::rule::{MatchFunction, MatchFunctions};
use crate::ot_layout::matcher::{Matcher, class_of};
use crate::ot_layout::skipping_iterator::{Found, Skip, SkippingIterator};

/// The number by which rules ask for a glyph; `None` where they ask by coverages.
fn number_of(match_function: &MatchFunction, glyph: u32) -> Option<u32> {
    match *match_function {
        MatchFunction::Glyphs => Some(glyph),
        MatchFunction::Classes(classes) => Some(u32::from(class_of(&classes, glyph))),
        MatchFunction::Coverages(_) => None,
    }
}

/// The numbers by which the rules of a set ask for a glyph.
#[derive(Clone, Copy, Debug)]
pub struct Numbers {
    /// As one of their input.
    input: u32,
    /// As one after it.
    lookahead: u32,
    /// The place after the glyph; 0 where there is none.
    end: usize,
}

impl Numbers {
    /// The numbers of a glyph; `None` where rules ask by coverages.
    fn of(match_functions: &MatchFunctions, glyph: u32, end: usize) -> Option<Self> {
        Some(Numbers {
            input: number_of(&match_functions.input, glyph)?,
            lookahead: number_of(&match_functions.lookahead, glyph)?,
            end,
        })
    }

    /// Those of no glyph, for which no rule asks.
    fn none() -> Self {
        Numbers {
            input: NO_GLYPH,
            lookahead: NO_GLYPH,
            end: 0,
        }
    }

    /// Whether the rule in these bytes asks for something else right after the cursor, as far as its first
    /// bytes tell.
    #[inline(always)]
    fn is_next_apart(&self, table: &[u8], is_chained: bool) -> bool {
        match asked_next(table, is_chained) {
            Some(asked) => self.is_other(&asked),
            None => false,
        }
    }

    /// Whether the rule in these bytes asks for something else at this number after the cursor.
    ///
    /// # Requires
    ///
    /// - `number < 2`
    fn is_apart(&self, table: &[u8], is_chained: bool, number: usize) -> bool {
        debug_assert!(number < 2);
        match asked_at(table, is_chained, number) {
            Some(asked) => self.is_other(&asked),
            None => false,
        }
    }

    /// Whether something else is asked for.
    #[inline(always)]
    fn is_other(&self, asked: &Asked) -> bool {
        match *asked {
            Asked::Input(number) => u32::from(number) != self.input,
            Asked::Lookahead(number) => u32::from(number) != self.lookahead,
        }
    }
}

/// The next two glyphs in the numbers of the rules of a set.
#[derive(Clone, Copy, Debug)]
pub struct Told {
    first: Numbers,
    second: Option<Numbers>,
}

impl Told {
    /// The next two glyphs, if they were looked at.
    ///
    /// # Proved
    ///
    /// ```text
    /// ensures { IfSome result (IsTold neighbours.now match_functions.now) }
    /// ```
    #[inline]
    pub fn new(neighbours: &Neighbours, match_functions: &MatchFunctions) -> Option<Self> {
        match *neighbours {
            Neighbours::Unseen => None,
            Neighbours::Absent => Some(Told {
                first: Numbers::none(),
                second: None,
            }),
            Neighbours::Seen(first, second) => Told::seen(match_functions, first, second),
        }
    }

    /// A glyph, and the one after it, if it counts.
    fn seen(match_functions: &MatchFunctions, first: Next, second: Option<Next>) -> Option<Self> {
        let first = Numbers::of(match_functions, first.glyph, first.end)?;
        match second {
            Some(second) => {
                let second = Numbers::of(match_functions, second.glyph, second.end)?;
                Some(Told {
                    first,
                    second: Some(second),
                })
            }
            None => Some(Told {
                first,
                second: None,
            }),
        }
    }

    /// Those of these glyphs up to which glyphs are known to be looked at.
    ///
    /// # Proved
    ///
    /// ```text
    /// ensures { IfSome result (λ told. (neighbours : Neighbours) → (m : MatchFunctions) → IsTold neighbours m self.now → IsTold neighbours m told) }
    /// ```
    #[inline]
    pub fn within(&self, known: usize) -> Option<Self> {
        if self.first.end > known {
            return None;
        }
        match self.second {
            Some(second) if second.end <= known => Some(*self),
            _ => Some(Told {
                first: self.first,
                second: None,
            }),
        }
    }

    /// Whether the rule in these bytes asks for other glyphs.
    ///
    /// # Proved
    ///
    /// ```text
    /// ensures { IsTrue result → (neighbours : Neighbours) → (m : MatchFunctions) → (p : Pattern) → IsTold neighbours m self.now
    ///     → rule_pattern is_chained m table.now ≡ Some p → may_fit neighbours p ≡ false }
    /// ```
    #[inline(always)]
    pub fn is_apart(&self, table: &[u8], is_chained: bool) -> bool {
        if self.first.is_next_apart(table, is_chained) {
            return true;
        }
        self.is_second_apart(table, is_chained)
    }

    /// Whether it asks for another second glyph.
    #[inline(never)]
    fn is_second_apart(&self, table: &[u8], is_chained: bool) -> bool {
        match self.second {
            Some(second) => second.is_apart(table, is_chained, 1),
            None => false,
        }
    }

    /// How far glyphs were looked at, where the rule in these bytes asks for other ones.
    ///
    /// # Proved
    ///
    /// ```text
    /// ensures { is_some result ≡ true → (neighbours : Neighbours) → (m : MatchFunctions) → (p : Pattern) → IsTold neighbours m self.now
    ///     → rule_pattern is_chained m table.now ≡ Some p → may_fit neighbours p ≡ false }
    /// ```
    #[inline(always)]
    pub fn apart(&self, table: &[u8], is_chained: bool) -> Option<usize> {
        if self.first.is_next_apart(table, is_chained) {
            return Some(self.first.end);
        }
        match self.second {
            Some(second) => {
                if second.is_apart(table, is_chained, 1) {
                    Some(second.end)
                } else {
                    None
                }
            }
            None => None,
        }
    }
}

/// The next glyph, which counts whatever is asked for, in the numbers of rules; or that none stands there.
#[derive(Clone, Copy, Debug)]
pub struct Beside {
    /// The number that a rule has to ask for; one that none asks for where nothing stands there.
    pub number: u32,
    /// How far glyphs were looked at.
    pub end: usize,
    /// How many glyphs after the cursor these were.
    pub steps: usize,
}

impl Beside {
    /// The next glyph that a walk comes to, if it counts whatever is asked for.
    ///
    /// # Requires
    ///
    /// - `0 < length glyphs.now`
    ///
    /// # Proved
    ///
    /// ```text
    /// ensures { IfSome result (IsBeside iterator.now glyphs.now match_function.now) }
    /// ```
    #[inline]
    pub fn new(
        iterator: &SkippingIterator,
        match_function: &MatchFunction,
        glyphs: &[hb_glyph_info_t],
    ) -> Option<Self> {
        debug_assert!(!glyphs.is_empty());
        let place = match iterator.next(&Matcher::Any, glyphs, 0) {
            Found::At(place) => place,
            Found::Other(place) => return Some(Beside::none(place + 1, place)),
            Found::End => return Some(Beside::none(glyphs.len(), glyphs.len())),
        };
        if iterator.skip(&glyphs[place]) != Skip::No {
            return None;
        }
        Some(Beside {
            number: number_of(match_function, glyphs[place].glyph_id)?,
            end: place + 1,
            steps: place,
        })
    }

    /// This glyph, where another one is asked for.
    ///
    /// # Proved
    ///
    /// ```text
    /// ensures { IfSome result (λ beside. (beside ≡ self.now) × (asked ≢ self.now.number)) }
    /// ```
    #[inline]
    pub fn other_than(&self, asked: u16) -> Option<Self> {
        if self.number == u32::from(asked) {
            None
        } else {
            Some(*self)
        }
    }

    /// That no glyph stands there that a rule may ask for.
    fn none(end: usize, steps: usize) -> Self {
        Beside {
            number: NO_GLYPH,
            end,
            steps,
        }
    }
}
