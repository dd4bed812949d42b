use crate::Fail;
use vukhaso::internals::glyph::hb_unicode_funcs_t::*;
use vukhaso::internals::glyph::{
    CharExt, CombiningClasses, Mirrors, hb_unicode_general_category_t as Category,
};
use vukhaso::internals::text::tag::Tag;

/// Characters, the tags of their scripts, their categories and the kinds of spaces that they are.
static KINDS: [(char, &[u8; 4], Category, space_t); 9] = [
    ('a', b"Latn", Category::LowercaseLetter, NOT_SPACE),
    (' ', b"Zyyy", Category::SpaceSeparator, SPACE),
    ('\u{2001}', b"Zyyy", Category::SpaceSeparator, SPACE_EM),
    ('\u{205f}', b"Zyyy", Category::SpaceSeparator, SPACE_4_EM_18),
    ('\u{301}', b"Zinh", Category::NonspacingMark, NOT_SPACE),
    ('\u{5d0}', b"Hebr", Category::OtherLetter, NOT_SPACE),
    ('\u{1401}', b"Cans", Category::OtherLetter, NOT_SPACE),
    ('\u{16ea0}', b"Zzzz", Category::UppercaseLetter, NOT_SPACE),
    ('\u{378}', b"Zzzz", Category::Unassigned, NOT_SPACE),
];

/// Characters, whether they are invisible, select variations and are pictographs, and their vertical forms.
static FORMS: [(char, bool, bool, bool, Option<char>); 10] = [
    ('\u{ad}', true, false, false, None),
    ('\u{ae}', false, false, true, None),
    ('\u{115f}', false, false, false, None),
    ('\u{180f}', true, false, false, None),
    ('\u{2026}', false, false, false, Some('\u{fe19}')),
    ('\u{2605}', false, false, true, None),
    ('\u{2606}', false, false, false, None),
    ('\u{fe0f}', true, true, false, None),
    ('\u{ff5d}', false, false, false, Some('\u{fe38}')),
    ('\u{e01ef}', true, true, false, None),
];

#[test]
fn a_character_has_its_properties() {
    for (character, script, category, space) in KINDS.iter() {
        assert!(
            character.script().tag() == Tag::from_bytes(script),
            "{character:?}"
        );
        assert!(character.general_category() == *category, "{character:?}");
        assert!(character.space_fallback() == *space, "{character:?}");
    }
    for &(character, is_invisible, is_selector, is_pictograph, form) in &FORMS {
        assert!(
            character.is_default_ignorable() == is_invisible,
            "{character:?}"
        );
        assert!(
            character.is_variation_selector() == is_selector,
            "{character:?}"
        );
        assert!(
            character.is_emoji_extended_pictographic() == is_pictograph,
            "{character:?}"
        );
        assert!(character.vertical() == form, "{character:?}");
    }
}

/// Characters, their canonical combining classes, and the classes that they are reordered by.
static CLASSES: [(char, u8, u8); 6] = [
    ('\u{5b0}', 10, 22),
    ('\u{651}', 33, 27),
    ('\u{c55}', 84, 0),
    ('\u{f39}', 216, 127),
    ('\u{fc6}', 220, 254),
    ('\u{1a60}', 9, 254),
];

#[test]
fn tables_are_asked() -> Result<(), Fail> {
    for &(character, class, changed) in &CLASSES {
        let rows = [(character, class)];
        let classes = CombiningClasses::new(&rows).ok_or("one row")?;
        assert!(
            character.modified_combining_class(&classes) == changed,
            "{character:?}"
        );
        assert!('a'.modified_combining_class(&classes) == 0, "{character:?}");
    }
    let rows = [('(', ')'), (')', '('), ('\u{ab}', '\u{bb}')];
    let mirrors = Mirrors::new(&rows).ok_or("three rows")?;
    assert!('\u{ab}'.mirrored(&mirrors) == Some('\u{bb}'));
    assert!('a'.mirrored(&mirrors).is_none());
    Ok(())
}
