// Written by tools/plain_rust from crates/rb_glyph. Do not edit.

//! The numbers of the general categories of the Unicode Character Database, in the order of HarfBuzz's
//! `hb_unicode_general_category_t`.

/// Cc: control characters.
pub const RB_UNICODE_GENERAL_CATEGORY_CONTROL: u32 = 0;

/// Cf: format characters.
pub const RB_UNICODE_GENERAL_CATEGORY_FORMAT: u32 = 1;

/// Cn: code points with no character.
pub const RB_UNICODE_GENERAL_CATEGORY_UNASSIGNED: u32 = 2;

/// Co: private use.
pub const RB_UNICODE_GENERAL_CATEGORY_PRIVATE_USE: u32 = 3;

/// Cs: surrogate code points.
pub const RB_UNICODE_GENERAL_CATEGORY_SURROGATE: u32 = 4;

/// Ll: lowercase letters.
pub const RB_UNICODE_GENERAL_CATEGORY_LOWERCASE_LETTER: u32 = 5;

/// Lm: modifier letters.
pub const RB_UNICODE_GENERAL_CATEGORY_MODIFIER_LETTER: u32 = 6;

/// Lo: letters without case.
pub const RB_UNICODE_GENERAL_CATEGORY_OTHER_LETTER: u32 = 7;

/// Lt: titlecase letters.
pub const RB_UNICODE_GENERAL_CATEGORY_TITLECASE_LETTER: u32 = 8;

/// Lu: uppercase letters.
pub const RB_UNICODE_GENERAL_CATEGORY_UPPERCASE_LETTER: u32 = 9;

/// Mc: spacing marks.
pub const RB_UNICODE_GENERAL_CATEGORY_SPACING_MARK: u32 = 10;

/// Me: enclosing marks.
pub const RB_UNICODE_GENERAL_CATEGORY_ENCLOSING_MARK: u32 = 11;

/// Mn: nonspacing marks.
pub const RB_UNICODE_GENERAL_CATEGORY_NON_SPACING_MARK: u32 = 12;

/// Nd: decimal digits.
pub const RB_UNICODE_GENERAL_CATEGORY_DECIMAL_NUMBER: u32 = 13;

/// Nl: letters that are numbers.
pub const RB_UNICODE_GENERAL_CATEGORY_LETTER_NUMBER: u32 = 14;

/// No: other numbers.
pub const RB_UNICODE_GENERAL_CATEGORY_OTHER_NUMBER: u32 = 15;

/// Pc: connector punctuation.
pub const RB_UNICODE_GENERAL_CATEGORY_CONNECT_PUNCTUATION: u32 = 16;

/// Pd: dashes.
pub const RB_UNICODE_GENERAL_CATEGORY_DASH_PUNCTUATION: u32 = 17;

/// Pe: closing punctuation.
pub const RB_UNICODE_GENERAL_CATEGORY_CLOSE_PUNCTUATION: u32 = 18;

/// Pf: final quotation marks.
pub const RB_UNICODE_GENERAL_CATEGORY_FINAL_PUNCTUATION: u32 = 19;

/// Pi: initial quotation marks.
pub const RB_UNICODE_GENERAL_CATEGORY_INITIAL_PUNCTUATION: u32 = 20;

/// Po: other punctuation.
pub const RB_UNICODE_GENERAL_CATEGORY_OTHER_PUNCTUATION: u32 = 21;

/// Ps: opening punctuation.
pub const RB_UNICODE_GENERAL_CATEGORY_OPEN_PUNCTUATION: u32 = 22;

/// Sc: currency signs.
pub const RB_UNICODE_GENERAL_CATEGORY_CURRENCY_SYMBOL: u32 = 23;

/// Sk: modifier symbols.
pub const RB_UNICODE_GENERAL_CATEGORY_MODIFIER_SYMBOL: u32 = 24;

/// Sm: mathematical symbols.
pub const RB_UNICODE_GENERAL_CATEGORY_MATH_SYMBOL: u32 = 25;

/// So: other symbols.
pub const RB_UNICODE_GENERAL_CATEGORY_OTHER_SYMBOL: u32 = 26;

/// Zl: the line separator.
pub const RB_UNICODE_GENERAL_CATEGORY_LINE_SEPARATOR: u32 = 27;

/// Zp: the paragraph separator.
pub const RB_UNICODE_GENERAL_CATEGORY_PARAGRAPH_SEPARATOR: u32 = 28;

/// Zs: spaces.
pub const RB_UNICODE_GENERAL_CATEGORY_SPACE_SEPARATOR: u32 = 29;
