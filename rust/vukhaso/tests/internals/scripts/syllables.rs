//! Tables of syllables. What is expected is what OpenType's documents and HarfBuzz's tables have.

use vukhaso::internals::script_indic::machine::indic_machine;
use vukhaso::internals::script_syllables::{Category, Machine, Position, category_of, third_vowel};
use vukhaso::internals::script_universal::khmer::machine::khmer_machine;
use vukhaso::internals::script_universal::myanmar::machine::myanmar_machine;
use vukhaso::internals::script_universal::universal::machine::universal_machine;
use vukhaso::internals::universal_categories::{UniversalCategory, universal_category_of};

/// The letter KA, the vowel sign I on its left, the Khmer sign of a subjoined letter, and a Latin letter.
static CHARACTERS: [(u32, Category, Position); 4] = [
    (0x915, Category::Consonant, Position::Base),
    (0x93F, Category::Matra, Position::PreMatra),
    (0x17D2, Category::Halant, Position::End),
    (0x41, Category::Other, Position::End),
];

/// A character and its category for the universal shaper.
static UNIVERSAL: [(u32, UniversalCategory); 4] = [
    (0x1B13, UniversalCategory::Base),
    (0x1B44, UniversalCategory::Halant),
    (0x200C, UniversalCategory::NonJoiner),
    (0x41, UniversalCategory::Other),
];

#[test]
fn characters_have_categories() {
    for (character, category, position) in &CHARACTERS {
        let found = category_of(*character);
        assert_eq!(found, (*category, *position), "{character}");
    }
}

#[test]
fn categories_have_numbers() {
    for (_, category, position) in &CHARACTERS {
        assert_eq!(Category::numbered(*category as u8), *category);
        assert_eq!(Position::numbered(*position as u8), *position);
    }
    assert_eq!(Category::numbered(99), Category::Other);
    assert_eq!(Position::numbered(99), Position::End);
}

#[test]
fn characters_have_universal_categories() {
    for (character, category) in &UNIVERSAL {
        assert_eq!(universal_category_of(*character), *category, "{character}");
    }
}

/// The kind of the syllable that a machine has read of these categories.
fn kind_of(machine: &Machine, categories: &[u8]) -> Option<u8> {
    let mut state = 1;
    for category in categories {
        state = machine.next_state(state, *category);
    }
    machine.kind_read(state)
}

/// Asserts that a consonant with a halant and another consonant is one syllable of the first kind; that
/// a Latin letter is one of the last, and that two are none.
fn assert_reads(machine: &Machine, last: u8) {
    let (consonant, halant) = (Category::Consonant as u8, Category::Halant as u8);
    let other = Category::Other as u8;
    assert_eq!(
        kind_of(machine, &[consonant, halant, consonant]),
        Some(0),
        "{last}"
    );
    assert_eq!(kind_of(machine, &[other]), Some(last), "{last}");
    assert!(kind_of(machine, &[other, other]).is_none(), "{last}");
    assert!(kind_of(machine, &[]).is_none(), "{last}");
}

#[test]
fn machines_read_syllables() {
    assert_reads(&indic_machine(), 5);
    assert_reads(&khmer_machine(), 2);
    assert_reads(&myanmar_machine(), 2);
    let base = UniversalCategory::Base as u8;
    let joined = [base, UniversalCategory::Halant as u8, base];
    assert_eq!(kind_of(&universal_machine(), &joined), Some(2));
}

/// The letter A and the vowel sign OE look like another vowel, and so do RA, a halant and the vowel I;
/// A and A do not.
#[test]
fn vowels_look_like_others() {
    assert_eq!(third_vowel('\u{905}', 0x93A), Some(None));
    assert_eq!(third_vowel('\u{930}', 0x94D), Some(Some('\u{907}')));
    assert!(third_vowel('\u{905}', 0x905).is_none());
}
