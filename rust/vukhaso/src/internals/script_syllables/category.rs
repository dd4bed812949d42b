// Written by tools/plain_rust from crates/script_syllables. Do not edit.

//! What a character is in a syllable of an Indic script, of Khmer or of Myanmar.

pub mod position;
mod rows;
pub mod search;

/// What a character is in a syllable (Unicode, Indic_Syllabic_Category, as OpenType's documents on these scripts take it).
#[derive(Clone, Copy, PartialEq, Eq, Debug)]
pub enum Category {
    /// None of those below.
    Other,
    /// A consonant.
    Consonant,
    /// An independent vowel.
    Vowel,
    /// A nukta, or a tone mark.
    Nukta,
    /// A halant, which takes the vowel from a consonant, or stacks the next one below it.
    Halant,
    /// A zero width non-joiner.
    NonJoiner,
    /// A zero width joiner.
    Joiner,
    /// A vowel sign.
    Matra,
    /// A sign that modifies the syllable, as anusvara and visarga.
    Modifier,
    /// A Vedic accent or another mark of singing.
    Cantillation,
    /// A character that takes signs as a consonant does: a digit, a dash.
    Placeholder,
    /// The dotted circle.
    DottedCircle,
    /// A register shifter.
    RegisterShifter,
    /// A vowel sign that may stand behind a modifier.
    MatraPost,
    /// A reph that is a character of its own.
    Repha,
    /// The letter RA, which may become a reph.
    Ra,
    /// A medial consonant.
    ConsonantMedial,
    /// A sign that takes marks, as avagraha.
    Symbol,
    /// A consonant that stacks the next one below it.
    ConsonantWithStacker,
    /// A modifier that is no mark.
    ModifierPost,
    /// A vowel sign above, in Khmer and Myanmar.
    VowelAbove,
    /// A vowel sign below, in Khmer and Myanmar.
    VowelBelow,
    /// A vowel sign on the left, in Khmer and Myanmar.
    VowelPre,
    /// A vowel sign on the right, in Khmer and Myanmar.
    VowelPost,
    /// Khmer signs that shift the register, and the robat.
    Robatic,
    /// Khmer signs above, among vowel signs.
    XGroup,
    /// Khmer signs at the end.
    YGroup,
    /// The Myanmar sign asat.
    Asat,
    /// The Myanmar medial ha.
    MedialHa,
    /// The Myanmar medial ra.
    MedialRa,
    /// The Myanmar medial wa.
    MedialWa,
    /// The Myanmar medial ya.
    MedialYa,
    /// Tones of Pwo Karen and others.
    PwoTone,
    /// A variation selector.
    VariationSelector,
    /// The Myanmar medial la.
    MedialLa,
}

/// The categories in order.
static CATEGORIES: [Category; 35] = [
    Category::Other,
    Category::Consonant,
    Category::Vowel,
    Category::Nukta,
    Category::Halant,
    Category::NonJoiner,
    Category::Joiner,
    Category::Matra,
    Category::Modifier,
    Category::Cantillation,
    Category::Placeholder,
    Category::DottedCircle,
    Category::RegisterShifter,
    Category::MatraPost,
    Category::Repha,
    Category::Ra,
    Category::ConsonantMedial,
    Category::Symbol,
    Category::ConsonantWithStacker,
    Category::ModifierPost,
    Category::VowelAbove,
    Category::VowelBelow,
    Category::VowelPre,
    Category::VowelPost,
    Category::Robatic,
    Category::XGroup,
    Category::YGroup,
    Category::Asat,
    Category::MedialHa,
    Category::MedialRa,
    Category::MedialWa,
    Category::MedialYa,
    Category::PwoTone,
    Category::VariationSelector,
    Category::MedialLa,
];

impl Category {
    /// The category with a number; `Other` where none has it.
    ///
    /// # Proved
    ///
    /// ```text
    /// ensures { result ≡ category_of_number number }
    /// ```
    #[inline]
    pub fn numbered(number: u8) -> Category {
        match CATEGORIES.get(usize::from(number)) {
            Some(category) => *category,
            None => Category::Other,
        }
    }

    /// Whether it is this one.
    ///
    /// # Proved
    ///
    /// ```text
    /// ensures { result ≡ same_category self other }
    /// ```
    #[inline]
    pub fn is(self, other: Category) -> bool {
        self == other
    }

    /// Whether it is a consonant, or what takes signs as one.
    pub(crate) fn takes_signs(self) -> bool {
        matches!(
            self,
            Category::Consonant
                | Category::ConsonantWithStacker
                | Category::Ra
                | Category::Vowel
                | Category::Placeholder
                | Category::DottedCircle
        )
    }
}
