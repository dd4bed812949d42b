// Written by tools/plain_rust from crates/ot_layout. Do not edit.

//! What a rule asks of a glyph.

use crate::common::GlyphId;
use crate::font_tables::class_definition::ClassDefinition;
use crate::font_tables::coverage::Coverage;
use crate::ot_lookups::lookup_props::covered_index;

/// What is asked of a glyph.
#[derive(Clone, Copy, Debug)]
pub enum Matcher<'a> {
    /// Nothing, and a glyph that may be passed over is passed over.
    Shown,
    /// Nothing, and a glyph that may be passed over is taken.
    Any,
    /// This glyph.
    Glyph(u16),
    /// A glyph of this class.
    Class(ClassDefinition<'a>, u16),
    /// A glyph that is covered.
    Covered(Coverage<'a>),
}

impl<'a> Matcher<'a> {
    /// Whether nothing is asked, and a glyph that may be passed over is passed over.
    ///
    /// # Proved
    ///
    /// ```text
    /// ensures { result ≡ is_shown self.now }
    /// ```
    #[inline]
    pub fn is_shown(&self) -> bool {
        matches!(*self, Matcher::Shown)
    }

    /// Whether a glyph is what is asked for. Of `Shown` this says whether one is that may be passed over:
    /// none is.
    ///
    /// # Proved
    ///
    /// ```text
    /// ensures { result ≡ fits self.now glyph }
    /// ```
    #[inline]
    pub fn fits(&self, glyph: u32) -> bool {
        match *self {
            Matcher::Shown => false,
            Matcher::Any => true,
            Matcher::Glyph(number) => u32::from(number) == glyph,
            Matcher::Class(classes, class) => class_of(&classes, glyph) == class,
            Matcher::Covered(coverage) => covered_index(&coverage, glyph).is_some(),
        }
    }
}

/// The class of a glyph of a buffer, which is 0 past 65,535.
///
/// # Proved
///
/// ```text
/// ensures { result ≡ class_in classes.now.table.now glyph }
/// ```
#[inline]
pub fn class_of(classes: &ClassDefinition, glyph: u32) -> u16 {
    if glyph > 0xFFFF {
        return 0;
    }
    classes.class(GlyphId(glyph as u16))
}
