// Written by tools/plain_rust from crates/rb_glyph. Do not edit.

//! What a shaper asks of a character.

use crate::common::Script;
use crate::glyph::category::hb_unicode_general_category_t;
use crate::glyph::hb_unicode_funcs_t::*;
use crate::glyph::modified_combining_class::*;
use crate::glyph::tables::{CombiningClasses, Mirrors};
use crate::glyph::{categories, ranges, row_search, scripts};
use crate::unicode::properties::{GeneralCategory, Script as UnicodeScript};

/// The properties of characters that shaping goes by.
///
/// # Proved
///
/// ```text
/// ghost code_point: { Self → ℕ }
/// ```
pub trait CharExt: Sized {
    /// The script (Unicode Standard Annex 24), as the constant of `rb_common::script` with its name.
    ///
    /// A script without a constant, and a character without a script, give `UNKNOWN`.
    ///
    /// # Proved
    ///
    /// ```text
    /// ensures { result ≡ script_of_char (code_point self) }
    /// ```
    fn script(self) -> Script;

    /// The general category (Unicode Standard Annex 44).
    ///
    /// # Proved
    ///
    /// ```text
    /// ensures { result ≡ category_of_char (code_point self) }
    /// ```
    fn general_category(self) -> hb_unicode_general_category_t;

    /// The kind of a space, by which a font without a glyph for it makes up its width; `NOT_SPACE` for any
    /// other character.
    ///
    /// # Proved
    ///
    /// ```text
    /// ensures { result ≡ space_fallback (code_point self) }
    /// ```
    fn space_fallback(self) -> space_t;

    /// The class that a mark is reordered by: its canonical combining class in the table, changed as the
    /// module `modified_combining_class` says; three characters have a class of their own.
    ///
    /// # Proved
    ///
    /// ```text
    /// ensures { result ≡ modified_combining_class (code_point self) classes.now }
    /// ```
    fn modified_combining_class(self, classes: &CombiningClasses) -> u8;

    /// The mirror image in the table, or `None` where the character has no row.
    ///
    /// # Proved
    ///
    /// ```text
    /// ensures { result ≡ value_of (code_point self) mirrors.now }
    /// ```
    fn mirrored(self, mirrors: &Mirrors) -> Option<char>;

    /// Whether emoji are made from the character: by a list of this project's own, after
    /// Extended_Pictographic of Unicode Technical Standard 51.
    ///
    /// # Proved
    ///
    /// ```text
    /// ensures { result ≡ holds (code_point self) extended_pictographics }
    /// ```
    fn is_emoji_extended_pictographic(self) -> bool;

    /// Whether the character is invisible where a font has no glyph for it (Unicode,
    /// Default_Ignorable_Code_Point).
    ///
    /// The Hangul fillers and the shorthand format controls are taken as visible, as HarfBuzz takes them.
    ///
    /// # Proved
    ///
    /// ```text
    /// ensures { result ≡ holds (code_point self) default_ignorables }
    /// ```
    fn is_default_ignorable(self) -> bool;

    /// Whether the character selects a variation of the one before it; the Mongolian selectors are left
    /// out.
    ///
    /// # Proved
    ///
    /// ```text
    /// ensures { result ≡ holds (code_point self) variation_selectors }
    /// ```
    fn is_variation_selector(self) -> bool;

    /// The form that stands in vertical lines (Unicode, the blocks Vertical Forms and CJK Compatibility
    /// Forms).
    ///
    /// # Proved
    ///
    /// ```text
    /// ensures { result ≡ value_of (code_point self) vertical_forms }
    /// ```
    fn vertical(self) -> Option<char>;
}

///
/// # Proved
///
/// ```text
/// ghost code_point = { λ c. c }
/// ```
impl CharExt for char {
    fn script(self) -> Script {
        scripts::script_named(UnicodeScript::for_char(self))
    }

    fn general_category(self) -> hb_unicode_general_category_t {
        categories::same_category(GeneralCategory::for_char(self))
    }

    fn space_fallback(self) -> space_t {
        match self {
            '\u{20}' | '\u{a0}' => SPACE,
            '\u{2000}' | '\u{2002}' => SPACE_EM_2,
            '\u{2001}' | '\u{2003}' | '\u{3000}' => SPACE_EM,
            '\u{2004}' => SPACE_EM_3,
            '\u{2005}' => SPACE_EM_4,
            '\u{2006}' => SPACE_EM_6,
            '\u{2007}' => SPACE_FIGURE,
            '\u{2008}' => SPACE_PUNCTUATION,
            '\u{2009}' => SPACE_EM_5,
            '\u{200a}' => SPACE_EM_16,
            '\u{202f}' => SPACE_NARROW,
            '\u{205f}' => SPACE_4_EM_18,
            _ => NOT_SPACE,
        }
    }

    fn modified_combining_class(self, classes: &CombiningClasses) -> u8 {
        match self {
            '\u{1a60}' | '\u{fc6}' => 254,
            '\u{f39}' => 127,
            _ => reordering_class(classes.class_of(self).unwrap_or(0)),
        }
    }

    fn mirrored(self, mirrors: &Mirrors) -> Option<char> {
        mirrors.mirror_of(self)
    }

    fn is_emoji_extended_pictographic(self) -> bool {
        row_search::holds(&ranges::EXTENDED_PICTOGRAPHICS, self)
    }

    fn is_default_ignorable(self) -> bool {
        row_search::holds(&ranges::DEFAULT_IGNORABLES, self)
    }

    fn is_variation_selector(self) -> bool {
        row_search::holds(&ranges::VARIATION_SELECTORS, self)
    }

    fn vertical(self) -> Option<char> {
        match self {
            '\u{2013}' => Some('\u{fe32}'),
            '\u{2014}' => Some('\u{fe31}'),
            '\u{2025}' => Some('\u{fe30}'),
            '\u{2026}' => Some('\u{fe19}'),
            '\u{3001}' => Some('\u{fe11}'),
            '\u{3002}' => Some('\u{fe12}'),
            '\u{3008}' => Some('\u{fe3f}'),
            '\u{3009}' => Some('\u{fe40}'),
            '\u{300a}' => Some('\u{fe3d}'),
            '\u{300b}' => Some('\u{fe3e}'),
            '\u{300c}' => Some('\u{fe41}'),
            '\u{300d}' => Some('\u{fe42}'),
            '\u{300e}' => Some('\u{fe43}'),
            '\u{300f}' => Some('\u{fe44}'),
            '\u{3010}' => Some('\u{fe3b}'),
            '\u{3011}' => Some('\u{fe3c}'),
            '\u{3014}' => Some('\u{fe39}'),
            '\u{3015}' => Some('\u{fe3a}'),
            '\u{3016}' => Some('\u{fe17}'),
            '\u{3017}' => Some('\u{fe18}'),
            '\u{fe4f}' => Some('\u{fe34}'),
            '\u{ff01}' => Some('\u{fe15}'),
            '\u{ff08}' => Some('\u{fe35}'),
            '\u{ff09}' => Some('\u{fe36}'),
            '\u{ff0c}' => Some('\u{fe10}'),
            '\u{ff1a}' => Some('\u{fe13}'),
            '\u{ff1b}' => Some('\u{fe14}'),
            '\u{ff1f}' => Some('\u{fe16}'),
            '\u{ff3b}' => Some('\u{fe47}'),
            '\u{ff3d}' => Some('\u{fe48}'),
            '\u{ff3f}' => Some('\u{fe33}'),
            '\u{ff5b}' => Some('\u{fe37}'),
            '\u{ff5d}' => Some('\u{fe38}'),
            _ => None,
        }
    }
}

/// The class that marks of a canonical combining class are reordered by.
fn reordering_class(class: u8) -> u8 {
    match class {
        10 => CCC10,
        11 => CCC11,
        12 => CCC12,
        13 => CCC13,
        14 => CCC14,
        15 => CCC15,
        16 => CCC16,
        17 => CCC17,
        18 => CCC18,
        19 => CCC19,
        20 => CCC20,
        21 => CCC21,
        22 => CCC22,
        23 => CCC23,
        24 => CCC24,
        25 => CCC25,
        26 => CCC26,
        27 => CCC27,
        28 => CCC28,
        29 => CCC29,
        30 => CCC30,
        31 => CCC31,
        32 => CCC32,
        33 => CCC33,
        34 => CCC34,
        35 => CCC35,
        36 => CCC36,
        84 => CCC84,
        91 => CCC91,
        103 => CCC103,
        107 => CCC107,
        118 => CCC118,
        122 => CCC122,
        129 => CCC129,
        130 => CCC130,
        132 => CCC132,
        _ => class,
    }
}
