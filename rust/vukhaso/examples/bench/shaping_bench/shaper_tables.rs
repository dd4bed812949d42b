// Written by tools/plain_rust from crates/shaping_bench. Do not edit.

//! The tables that the passes of a shaper take.

use vukhaso::internals::buffer::{CombiningClasses, Compositions, Decompositions};
use vukhaso::internals::unicode_tables::UnicodeRows;

/// The tables over the rows of the Unicode Character Database.
#[derive(Debug)]
pub struct Tables<'a> {
    pub classes: CombiningClasses<'a>,
    pub decompositions: Decompositions<'a>,
    pub compositions: Compositions<'a>,
}

impl<'a> Tables<'a> {
    /// # Proved
    ///
    /// That it returns.
    #[inline]
    pub fn new(rows: &'a UnicodeRows) -> Self {
        Tables {
            classes: rows.classes(),
            decompositions: rows.decompositions(),
            compositions: rows.compositions(),
        }
    }
}
