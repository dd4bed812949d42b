// Written by tools/plain_rust from crates/script_syllables. Do not edit.

//! Where a character stands in a syllable.

/// Where a character stands in a syllable, from the left to the right as it is seen.
#[derive(Clone, Copy, PartialEq, Eq, PartialOrd, Ord, Debug)]
pub enum Position {
    /// Before all others.
    Start,
    /// A RA that becomes a reph.
    Reph,
    /// A vowel sign on the left.
    PreMatra,
    /// A consonant before the base.
    PreConsonant,
    /// The base.
    Base,
    /// Behind the base.
    AfterMain,
    /// Above the base.
    Above,
    /// Before the forms below the base.
    BeforeSub,
    /// A consonant below the base.
    Below,
    /// Behind the forms below the base.
    AfterSub,
    /// Before the forms behind the base.
    BeforePost,
    /// A consonant behind the base.
    Post,
    /// Behind the forms behind the base.
    AfterPost,
    /// A modifier of the syllable, or a Vedic sign.
    Sign,
    /// Behind all others.
    End,
}

/// The positions in order.
static POSITIONS: [Position; 15] = [
    Position::Start,
    Position::Reph,
    Position::PreMatra,
    Position::PreConsonant,
    Position::Base,
    Position::AfterMain,
    Position::Above,
    Position::BeforeSub,
    Position::Below,
    Position::AfterSub,
    Position::BeforePost,
    Position::Post,
    Position::AfterPost,
    Position::Sign,
    Position::End,
];

impl Position {
    /// The position with a number; `End` where none has it.
    ///
    /// # Proved
    ///
    /// ```text
    /// ensures { result ≡ position_of_number number }
    /// ```
    #[inline]
    pub fn numbered(number: u8) -> Position {
        match POSITIONS.get(usize::from(number)) {
            Some(position) => *position,
            None => Position::End,
        }
    }

    /// Whether it is this one.
    ///
    /// # Proved
    ///
    /// ```text
    /// ensures { result ≡ same_position self other }
    /// ```
    #[inline]
    pub fn is(self, other: Position) -> bool {
        self == other
    }
}
