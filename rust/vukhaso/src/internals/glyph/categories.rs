// Written by tools/plain_rust from crates/rb_glyph. Do not edit.

//! Which category of this crate stands for one of the Unicode Character Database.

use crate::glyph::category::hb_unicode_general_category_t as Category;
use crate::unicode::properties::GeneralCategory;

/// The category with the same name.
pub(crate) fn same_category(category: GeneralCategory) -> Category {
    match category {
        GeneralCategory::UppercaseLetter => Category::UppercaseLetter,
        GeneralCategory::LowercaseLetter => Category::LowercaseLetter,
        GeneralCategory::TitlecaseLetter => Category::TitlecaseLetter,
        GeneralCategory::ModifierLetter => Category::ModifierLetter,
        GeneralCategory::OtherLetter => Category::OtherLetter,
        GeneralCategory::NonspacingMark => Category::NonspacingMark,
        GeneralCategory::SpacingMark => Category::SpacingMark,
        GeneralCategory::EnclosingMark => Category::EnclosingMark,
        GeneralCategory::DecimalNumber => Category::DecimalNumber,
        GeneralCategory::LetterNumber => Category::LetterNumber,
        GeneralCategory::OtherNumber => Category::OtherNumber,
        GeneralCategory::ConnectorPunctuation => Category::ConnectorPunctuation,
        GeneralCategory::DashPunctuation => Category::DashPunctuation,
        GeneralCategory::OpenPunctuation => Category::OpenPunctuation,
        GeneralCategory::ClosePunctuation => Category::ClosePunctuation,
        GeneralCategory::InitialPunctuation => Category::InitialPunctuation,
        GeneralCategory::FinalPunctuation => Category::FinalPunctuation,
        GeneralCategory::OtherPunctuation => Category::OtherPunctuation,
        GeneralCategory::MathSymbol => Category::MathSymbol,
        GeneralCategory::CurrencySymbol => Category::CurrencySymbol,
        GeneralCategory::ModifierSymbol => Category::ModifierSymbol,
        GeneralCategory::OtherSymbol => Category::OtherSymbol,
        GeneralCategory::SpaceSeparator => Category::SpaceSeparator,
        GeneralCategory::LineSeparator => Category::LineSeparator,
        GeneralCategory::ParagraphSeparator => Category::ParagraphSeparator,
        GeneralCategory::Control => Category::Control,
        GeneralCategory::Format => Category::Format,
        GeneralCategory::Surrogate => Category::Surrogate,
        GeneralCategory::PrivateUse => Category::PrivateUse,
        GeneralCategory::Unassigned => Category::Unassigned,
    }
}
