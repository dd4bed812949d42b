//! What tables answer as a font, as the classes of marks and as pairs. The syllables of Hangul are those of the Unicode
//! Standard, section 3.12, and the classes of Arabic marks those by which HarfBuzz puts them in order.

use crate::Fail;
use vukhaso::internals::buffer::{CombiningClasses, Compositions, Decompositions, hb_glyph_info_t};
use vukhaso::internals::passes::normalization::{CharacterPairs, FontCharacters, MarkClasses};

static DECOMPOSITIONS: [(char, char, Option<char>); 3] = [
    ('\u{c5}', 'A', Some('\u{30a}')),
    ('\u{1e69}', '\u{1e63}', Some('\u{307}')),
    ('\u{212b}', '\u{c5}', None),
];

static COMPOSITIONS: [((char, char), char); 2] = [
    (('A', '\u{30a}'), '\u{c5}'),
    (('\u{1e63}', '\u{307}'), '\u{1e69}'),
];

static CLASSES: [(char, u8); 4] = [
    ('\u{301}', 230),
    ('\u{323}', 220),
    ('\u{64b}', 27),
    ('\u{651}', 33),
];

/// Numbers of characters, and their two parts.
static PARTS: [(u32, Option<(u32, u32)>); 10] = [
    (0x1E69, Some((0x1E63, 0x307))),
    (0xC5, Some((0x41, 0x30A))),
    // a single part
    (0x212B, Some((0xC5, 0))),
    // the first and the last syllable, and one with and without its trailing consonant
    (0xAC00, Some((0x1100, 0x1161))),
    (0xD7A3, Some((0xD788, 0x11C2))),
    (0xD4DB, Some((0xD4CC, 0x11B6))),
    (0xD4CC, Some((0x1111, 0x1171))),
    // no parts; no character
    (0x41, None),
    (0xD800, None),
    (0x11_0000, None),
];

/// Two characters, and what they compose to.
static PAIRS: [(u32, u32, Option<u32>); 9] = [
    (0x41, 0x30A, Some(0xC5)),
    (0x1E63, 0x307, Some(0x1E69)),
    // the other way around
    (0x30A, 0x41, None),
    (0x1111, 0x1171, Some(0xD4CC)),
    (0xD4CC, 0x11B6, Some(0xD4DB)),
    // a second trailing consonant, and what stands before the first one
    (0xD4DB, 0x11B6, None),
    (0xD4CC, 0x11A7, None),
    // no character
    (0xD800, 0x30A, None),
    (0x41, 0x11_0000, None),
];

/// Characters, and the classes that they are put in order by: shadda goes before the signs of vowels.
static ORDERED_BY: [(u32, u16); 7] = [
    (0x301, 230),
    (0x323, 220),
    (0x64B, 28),
    (0x651, 27),
    // a starter; no character
    (0x41, 0),
    (0xD800, 0),
    (0x11_0000, 0),
];

/// The parts of a character, by a font.
fn parts_by<F: FontCharacters>(font: &F, character: u32) -> Option<(u32, u32)> {
    font.parts_of(character)
}

/// A glyph of this id.
fn glyph(id: u32) -> hb_glyph_info_t {
    hb_glyph_info_t {
        glyph_id: id,
        ..hb_glyph_info_t::default()
    }
}

#[test]
fn a_table_is_a_font_that_has_every_glyph() -> Result<(), Fail> {
    let table = Decompositions::new(&DECOMPOSITIONS).ok_or("rows that rise")?;
    for (character, parts) in &PARTS {
        assert_eq!(parts_by(&table, *character), *parts, "at {character}");
        assert!(table.has_glyph(*character), "at {character}");
    }
    assert!(!table.takes_fewest());
    Ok(())
}

#[test]
fn pairs_compose_to_characters() -> Result<(), Fail> {
    let table = Compositions::new(&COMPOSITIONS).ok_or("rows that rise")?;
    for (first, second, want) in &PAIRS {
        let composed = table.composed_of(&glyph(*first), &glyph(*second));
        assert_eq!(composed, *want, "at {first} and {second}");
    }
    Ok(())
}

#[test]
fn marks_have_the_classes_of_harfbuzz() -> Result<(), Fail> {
    let table = CombiningClasses::new(&CLASSES).ok_or("rows that rise")?;
    for (character, class) in &ORDERED_BY {
        assert_eq!(table.class_of(&glyph(*character)), *class, "at {character}");
    }
    Ok(())
}
