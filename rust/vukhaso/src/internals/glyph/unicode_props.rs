// Written by tools/plain_rust from crates/rb_glyph. Do not edit.

//! The properties that a character is given before it is shaped.

use crate::glyph::category::{GeneralCategoryExt, hb_unicode_general_category_t};
use crate::glyph::characters::CharExt;
use crate::glyph::flag_sets::UnicodeProps;
use crate::glyph::info::hb_glyph_info_t;
use crate::glyph::scratch::{
    HB_BUFFER_SCRATCH_FLAG_DEFAULT, HB_BUFFER_SCRATCH_FLAG_HAS_CGJ,
    HB_BUFFER_SCRATCH_FLAG_HAS_DEFAULT_IGNORABLES, HB_BUFFER_SCRATCH_FLAG_HAS_NON_ASCII,
    hb_buffer_scratch_flags_t,
};
use crate::glyph::tables::CombiningClasses;
use crate::glyph::{ranges, row_search};

const GRAPHEME_JOINER: char = '\u{34f}';

impl hb_glyph_info_t {
    /// Sets the Unicode properties of an item that is not shaped yet, and adds to the scratch flags what it
    /// remembers of its character.
    ///
    /// The properties are the number of the general category, and past ASCII how an invisible character is
    /// treated, and the class that a mark is reordered by, in bits 8 to 15 (HarfBuzz,
    /// `_hb_glyph_info_set_unicode_props`).
    ///
    /// # Requires
    ///
    /// - `IsScalar self.old.glyph_id`
    ///
    /// # Proved
    ///
    /// ```text
    /// ensures word { self.new ≡ record self.old {
    ///       var2 = with_field self.old.var2 0 16 (props_word self.old.glyph_id classes.now);
    ///     } }
    /// ensures remembered { scratch_flags.new ≡ props_scratch self.old.glyph_id scratch_flags.old }
    /// ```
    #[inline]
    pub fn init_unicode_props(
        &mut self,
        scratch_flags: &mut hb_buffer_scratch_flags_t,
        classes: &CombiningClasses,
    ) {
        debug_assert!(char::from_u32(self.glyph_id).is_some());
        let c = self.as_char();
        let category = c.general_category();
        let mut props = category.to_rb() as u16;
        if c >= '\u{80}' {
            let (ignorable, remembered) = of_ignorable(c);
            props = props | ignorable | of_mark(c, category, classes);
            *scratch_flags = *scratch_flags | (HB_BUFFER_SCRATCH_FLAG_HAS_NON_ASCII | remembered);
        }
        self.set_unicode_props(props);
    }
}

/// The bits of an invisible character, and what is remembered of it; none of any other.
fn of_ignorable(c: char) -> (u16, hb_buffer_scratch_flags_t) {
    if !c.is_default_ignorable() {
        return (0, HB_BUFFER_SCRATCH_FLAG_DEFAULT);
    }
    let joiner = if c == GRAPHEME_JOINER {
        HB_BUFFER_SCRATCH_FLAG_HAS_CGJ
    } else {
        HB_BUFFER_SCRATCH_FLAG_DEFAULT
    };
    (
        UnicodeProps::IGNORABLE.bits() | kind_of_ignorable(c),
        HB_BUFFER_SCRATCH_FLAG_HAS_DEFAULT_IGNORABLES | joiner,
    )
}

/// The kind of an invisible character: whether it joins its neighbours, keeps them apart or stays
/// hidden.
fn kind_of_ignorable(c: char) -> u16 {
    if c == '\u{200c}' {
        UnicodeProps::CF_ZWNJ.bits()
    } else if c == '\u{200d}' {
        UnicodeProps::CF_ZWJ.bits()
    } else if row_search::holds(&ranges::HIDDEN_IGNORABLES, c) {
        UnicodeProps::HIDDEN.bits()
    } else {
        0
    }
}

/// The bits of a mark; none of any other character.
///
/// # Requires
///
/// - `category ≡ category_of_char c`
fn of_mark(c: char, category: hb_unicode_general_category_t, classes: &CombiningClasses) -> u16 {
    if category.is_mark() {
        UnicodeProps::CONTINUATION.bits() | ((c.modified_combining_class(classes) as u16) << 8)
    } else {
        0
    }
}
