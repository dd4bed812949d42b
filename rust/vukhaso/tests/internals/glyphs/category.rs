use crate::buffer_tests::probes::traits::from_number;
use vukhaso::internals::glyph::category::{
    GeneralCategoryExt, hb_unicode_general_category_t as Category,
};

/// Categories and their numbers, and whether they are of marks and of letters.
static CATEGORIES: [(Category, u32, bool, bool); 8] = [
    (Category::Control, 0, false, false),
    (Category::Surrogate, 4, false, false),
    (Category::LowercaseLetter, 5, false, true),
    (Category::UppercaseLetter, 9, false, true),
    (Category::SpacingMark, 10, true, false),
    (Category::NonspacingMark, 12, true, false),
    (Category::DecimalNumber, 13, false, false),
    (Category::SpaceSeparator, 29, false, false),
];

#[test]
fn a_category_has_its_number_and_its_kind() {
    for (category, number, is_mark, is_letter) in CATEGORIES.iter() {
        assert!(category.to_rb() == *number, "{number}");
        assert!(category.is_mark() == *is_mark, "{number}");
        assert!(category.is_letter() == *is_letter, "{number}");
    }
    assert!(from_number::<Category>(29) == Category::SpaceSeparator);
}
