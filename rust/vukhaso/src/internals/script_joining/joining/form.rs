// Written by tools/plain_rust from crates/script_joining. Do not edit.

//! The forms of letters.

use crate::script_joining::joining::kind::JoiningType;
use crate::script_joining::joining::kind::JoiningType::*;

/// How a letter is written by its neighbours, each form by the feature of OpenType that has it; and how a piece of a mark that is
/// stretched over a word is.
#[derive(Clone, Copy, PartialEq, Eq, Debug)]
pub enum ArabicAction {
    /// It is no letter that joins.
    Unformed,
    /// Joined on no side: `isol`.
    Isol,
    /// Joined to the letter before: `fina`.
    Fina,
    /// An alaph at the end of a word, not joined: `fin2`.
    Fin2,
    /// An alaph at the end of a word, behind a dalath or a rish: `fin3`.
    Fin3,
    /// Joined on both sides: `medi`.
    Medi,
    /// An alaph within a word, joined to the letter before: `med2`.
    Med2,
    /// Joined to the next letter: `init`.
    Init,
    /// A piece of a mark that is stretched, which keeps its width.
    StchFixed,
    /// A piece of a mark that is stretched, which is repeated.
    StchRepeating,
}

use ArabicAction::*;

impl ArabicAction {
    /// The number under which an item keeps the form.
    pub(crate) fn number(self) -> u8 {
        self as u8
    }
}

/// The form of a letter of the type `own`, where `before` and `after` are the types of the nearest
/// letters that are not transparent.
pub(crate) fn form_between(
    before: JoiningType,
    own: JoiningType,
    after: JoiningType,
) -> ArabicAction {
    match own {
        NonJoining | Transparent => Unformed,
        Alaph => form_of_alaph(before, after.joins_previous()),
        Left | Right | Dual | DalathRish => form_of_sides(
            before.joins_next() && own.joins_previous(),
            own.joins_next() && after.joins_previous(),
        ),
    }
}

/// The form of a letter by the sides on which it is joined.
fn form_of_sides(before: bool, after: bool) -> ArabicAction {
    match (before, after) {
        (false, false) => Isol,
        (false, true) => Init,
        (true, false) => Fina,
        (true, true) => Medi,
    }
}

/// The form of an alaph: by the letter before it, and by whether its word goes on.
fn form_of_alaph(before: JoiningType, goes_on: bool) -> ArabicAction {
    match (before.joins_next(), goes_on) {
        (true, true) => Med2,
        (true, false) => Fina,
        (false, true) => Isol,
        (false, false) => last_alaph(before),
    }
}

/// The form of an alaph that ends a word and is not joined.
fn last_alaph(before: JoiningType) -> ArabicAction {
    match before {
        DalathRish => Fin3,
        Right | Alaph => Fin2,
        _ => Isol,
    }
}
