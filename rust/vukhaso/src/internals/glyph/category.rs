// Written by tools/plain_rust from crates/rb_glyph. Do not edit.

//! General categories.

use crate::glyph::hb_gc;

/// The general category of a character, as the Unicode Character Database names it.
#[derive(Clone, Copy, PartialEq, Eq, Hash, Debug)]
pub enum hb_unicode_general_category_t {
    /// Cc: control characters.
    Control,
    /// Cf: format characters.
    Format,
    /// Cn: code points with no character.
    Unassigned,
    /// Co: private use.
    PrivateUse,
    /// Cs: surrogate code points.
    Surrogate,
    /// Ll: lowercase letters.
    LowercaseLetter,
    /// Lm: modifier letters.
    ModifierLetter,
    /// Lo: letters without case.
    OtherLetter,
    /// Lt: titlecase letters.
    TitlecaseLetter,
    /// Lu: uppercase letters.
    UppercaseLetter,
    /// Mc: spacing marks.
    SpacingMark,
    /// Me: enclosing marks.
    EnclosingMark,
    /// Mn: nonspacing marks.
    NonspacingMark,
    /// Nd: decimal digits.
    DecimalNumber,
    /// Nl: letters that are numbers.
    LetterNumber,
    /// No: other numbers.
    OtherNumber,
    /// Pc: connector punctuation.
    ConnectorPunctuation,
    /// Pd: dashes.
    DashPunctuation,
    /// Pe: closing punctuation.
    ClosePunctuation,
    /// Pf: final quotation marks.
    FinalPunctuation,
    /// Pi: initial quotation marks.
    InitialPunctuation,
    /// Po: other punctuation.
    OtherPunctuation,
    /// Ps: opening punctuation.
    OpenPunctuation,
    /// Sc: currency signs.
    CurrencySymbol,
    /// Sk: modifier symbols.
    ModifierSymbol,
    /// Sm: mathematical symbols.
    MathSymbol,
    /// So: other symbols.
    OtherSymbol,
    /// Zl: the line separator.
    LineSeparator,
    /// Zp: the paragraph separator.
    ParagraphSeparator,
    /// Zs: spaces.
    SpaceSeparator,
}

/// What shapers ask of a general category.
///
/// # Proved
///
/// ```text
/// ghost number: { Self → ℕ }
/// ghost of_number: { ℕ → Self }
/// ghost is_a_mark: { Self → Bool }
/// ghost is_a_letter: { Self → Bool }
/// ```
pub trait GeneralCategoryExt: Sized {
    /// The category's number in the module `hb_gc`.
    ///
    /// # Proved
    ///
    /// ```text
    /// ensures value { result ≡ number self.now }
    /// ensures below { result < 30 }
    /// ```
    fn to_rb(&self) -> u32;

    /// The category with a number of the module `hb_gc`.
    ///
    /// # Requires
    ///
    /// - `gc < 30`
    ///
    /// # Proved
    ///
    /// ```text
    /// ensures { result ≡ of_number gc }
    /// ```
    fn from_rb(gc: u32) -> Self;

    /// Whether the category is one of marks: spacing, enclosing or nonspacing.
    ///
    /// # Proved
    ///
    /// ```text
    /// ensures { result ≡ is_a_mark self.now }
    /// ```
    fn is_mark(&self) -> bool;

    /// Whether the category is one of letters: lowercase, modifier, other, titlecase or uppercase.
    ///
    /// # Proved
    ///
    /// ```text
    /// ensures { result ≡ is_a_letter self.now }
    /// ```
    fn is_letter(&self) -> bool;
}

///
/// # Proved
///
/// ```text
/// ghost number = { number_of }
/// ghost of_number = { category_of }
/// ghost is_a_mark = { is_mark_category }
/// ghost is_a_letter = { is_letter_category }
/// ```
impl GeneralCategoryExt for hb_unicode_general_category_t {
    fn to_rb(&self) -> u32 {
        match *self {
            Self::Control => hb_gc::RB_UNICODE_GENERAL_CATEGORY_CONTROL,
            Self::Format => hb_gc::RB_UNICODE_GENERAL_CATEGORY_FORMAT,
            Self::Unassigned => hb_gc::RB_UNICODE_GENERAL_CATEGORY_UNASSIGNED,
            Self::PrivateUse => hb_gc::RB_UNICODE_GENERAL_CATEGORY_PRIVATE_USE,
            Self::Surrogate => hb_gc::RB_UNICODE_GENERAL_CATEGORY_SURROGATE,
            Self::LowercaseLetter => hb_gc::RB_UNICODE_GENERAL_CATEGORY_LOWERCASE_LETTER,
            Self::ModifierLetter => hb_gc::RB_UNICODE_GENERAL_CATEGORY_MODIFIER_LETTER,
            Self::OtherLetter => hb_gc::RB_UNICODE_GENERAL_CATEGORY_OTHER_LETTER,
            Self::TitlecaseLetter => hb_gc::RB_UNICODE_GENERAL_CATEGORY_TITLECASE_LETTER,
            Self::UppercaseLetter => hb_gc::RB_UNICODE_GENERAL_CATEGORY_UPPERCASE_LETTER,
            Self::SpacingMark => hb_gc::RB_UNICODE_GENERAL_CATEGORY_SPACING_MARK,
            Self::EnclosingMark => hb_gc::RB_UNICODE_GENERAL_CATEGORY_ENCLOSING_MARK,
            Self::NonspacingMark => hb_gc::RB_UNICODE_GENERAL_CATEGORY_NON_SPACING_MARK,
            Self::DecimalNumber => hb_gc::RB_UNICODE_GENERAL_CATEGORY_DECIMAL_NUMBER,
            Self::LetterNumber => hb_gc::RB_UNICODE_GENERAL_CATEGORY_LETTER_NUMBER,
            Self::OtherNumber => hb_gc::RB_UNICODE_GENERAL_CATEGORY_OTHER_NUMBER,
            Self::ConnectorPunctuation => hb_gc::RB_UNICODE_GENERAL_CATEGORY_CONNECT_PUNCTUATION,
            Self::DashPunctuation => hb_gc::RB_UNICODE_GENERAL_CATEGORY_DASH_PUNCTUATION,
            Self::ClosePunctuation => hb_gc::RB_UNICODE_GENERAL_CATEGORY_CLOSE_PUNCTUATION,
            Self::FinalPunctuation => hb_gc::RB_UNICODE_GENERAL_CATEGORY_FINAL_PUNCTUATION,
            Self::InitialPunctuation => hb_gc::RB_UNICODE_GENERAL_CATEGORY_INITIAL_PUNCTUATION,
            Self::OtherPunctuation => hb_gc::RB_UNICODE_GENERAL_CATEGORY_OTHER_PUNCTUATION,
            Self::OpenPunctuation => hb_gc::RB_UNICODE_GENERAL_CATEGORY_OPEN_PUNCTUATION,
            Self::CurrencySymbol => hb_gc::RB_UNICODE_GENERAL_CATEGORY_CURRENCY_SYMBOL,
            Self::ModifierSymbol => hb_gc::RB_UNICODE_GENERAL_CATEGORY_MODIFIER_SYMBOL,
            Self::MathSymbol => hb_gc::RB_UNICODE_GENERAL_CATEGORY_MATH_SYMBOL,
            Self::OtherSymbol => hb_gc::RB_UNICODE_GENERAL_CATEGORY_OTHER_SYMBOL,
            Self::LineSeparator => hb_gc::RB_UNICODE_GENERAL_CATEGORY_LINE_SEPARATOR,
            Self::ParagraphSeparator => hb_gc::RB_UNICODE_GENERAL_CATEGORY_PARAGRAPH_SEPARATOR,
            Self::SpaceSeparator => hb_gc::RB_UNICODE_GENERAL_CATEGORY_SPACE_SEPARATOR,
        }
    }

    fn from_rb(gc: u32) -> Self {
        match gc {
            hb_gc::RB_UNICODE_GENERAL_CATEGORY_CONTROL => Self::Control,
            hb_gc::RB_UNICODE_GENERAL_CATEGORY_FORMAT => Self::Format,
            hb_gc::RB_UNICODE_GENERAL_CATEGORY_UNASSIGNED => Self::Unassigned,
            hb_gc::RB_UNICODE_GENERAL_CATEGORY_PRIVATE_USE => Self::PrivateUse,
            hb_gc::RB_UNICODE_GENERAL_CATEGORY_SURROGATE => Self::Surrogate,
            hb_gc::RB_UNICODE_GENERAL_CATEGORY_LOWERCASE_LETTER => Self::LowercaseLetter,
            hb_gc::RB_UNICODE_GENERAL_CATEGORY_MODIFIER_LETTER => Self::ModifierLetter,
            hb_gc::RB_UNICODE_GENERAL_CATEGORY_OTHER_LETTER => Self::OtherLetter,
            hb_gc::RB_UNICODE_GENERAL_CATEGORY_TITLECASE_LETTER => Self::TitlecaseLetter,
            hb_gc::RB_UNICODE_GENERAL_CATEGORY_UPPERCASE_LETTER => Self::UppercaseLetter,
            hb_gc::RB_UNICODE_GENERAL_CATEGORY_SPACING_MARK => Self::SpacingMark,
            hb_gc::RB_UNICODE_GENERAL_CATEGORY_ENCLOSING_MARK => Self::EnclosingMark,
            hb_gc::RB_UNICODE_GENERAL_CATEGORY_NON_SPACING_MARK => Self::NonspacingMark,
            hb_gc::RB_UNICODE_GENERAL_CATEGORY_DECIMAL_NUMBER => Self::DecimalNumber,
            hb_gc::RB_UNICODE_GENERAL_CATEGORY_LETTER_NUMBER => Self::LetterNumber,
            hb_gc::RB_UNICODE_GENERAL_CATEGORY_OTHER_NUMBER => Self::OtherNumber,
            hb_gc::RB_UNICODE_GENERAL_CATEGORY_CONNECT_PUNCTUATION => Self::ConnectorPunctuation,
            hb_gc::RB_UNICODE_GENERAL_CATEGORY_DASH_PUNCTUATION => Self::DashPunctuation,
            hb_gc::RB_UNICODE_GENERAL_CATEGORY_CLOSE_PUNCTUATION => Self::ClosePunctuation,
            hb_gc::RB_UNICODE_GENERAL_CATEGORY_FINAL_PUNCTUATION => Self::FinalPunctuation,
            hb_gc::RB_UNICODE_GENERAL_CATEGORY_INITIAL_PUNCTUATION => Self::InitialPunctuation,
            hb_gc::RB_UNICODE_GENERAL_CATEGORY_OTHER_PUNCTUATION => Self::OtherPunctuation,
            hb_gc::RB_UNICODE_GENERAL_CATEGORY_OPEN_PUNCTUATION => Self::OpenPunctuation,
            hb_gc::RB_UNICODE_GENERAL_CATEGORY_CURRENCY_SYMBOL => Self::CurrencySymbol,
            hb_gc::RB_UNICODE_GENERAL_CATEGORY_MODIFIER_SYMBOL => Self::ModifierSymbol,
            hb_gc::RB_UNICODE_GENERAL_CATEGORY_MATH_SYMBOL => Self::MathSymbol,
            hb_gc::RB_UNICODE_GENERAL_CATEGORY_OTHER_SYMBOL => Self::OtherSymbol,
            hb_gc::RB_UNICODE_GENERAL_CATEGORY_LINE_SEPARATOR => Self::LineSeparator,
            hb_gc::RB_UNICODE_GENERAL_CATEGORY_PARAGRAPH_SEPARATOR => Self::ParagraphSeparator,
            hb_gc::RB_UNICODE_GENERAL_CATEGORY_SPACE_SEPARATOR => Self::SpaceSeparator,
            _ => unreachable!(),
        }
    }

    fn is_mark(&self) -> bool {
        matches!(
            *self,
            Self::SpacingMark | Self::EnclosingMark | Self::NonspacingMark
        )
    }

    fn is_letter(&self) -> bool {
        matches!(
            *self,
            Self::LowercaseLetter
                | Self::ModifierLetter
                | Self::OtherLetter
                | Self::TitlecaseLetter
                | Self::UppercaseLetter
        )
    }
}
