// Written by tools/plain_rust from crates/script_joining. Do not edit.

//! What is known of the places between letters: whether a line may be broken there, texts put together, a tatweel inserted.

use crate::buffer::{hb_buffer_t, hb_glyph_info_t};
use crate::script_joining::joining::forms::kind;
use crate::script_joining::joining::kind::JoiningType;
use crate::script_joining::joining::kind::JoiningType::*;

/// What a letter leaves to be said of the place before it.
#[derive(Clone, Copy, PartialEq, Eq, Debug)]
pub(crate) enum Tie {
    /// Nothing.
    Loose,
    /// The letter might be joined by another text.
    UnsafeToConcat,
    /// A tatweel may stand there: the letter before has its form by this one.
    SafeToInsertTatweel,
}

/// The last letter that was read.
#[derive(Clone, Copy, Debug)]
struct LastLetter {
    /// Its place in the text; `None` where it stands before the text.
    place: Option<usize>,
    /// Its type.
    kind: JoiningType,
    /// Whether its form depends on the next letter.
    heeds_next: bool,
    /// The place of the letter before it, where its form depends on that and they are not joined.
    formed_by: Option<usize>,
}

/// Whether the form of a letter depends on the next one.
fn heeds_next(before: JoiningType, own: JoiningType) -> bool {
    match own {
        Left | Dual => true,
        Alaph => before.joins_next() || before.joins_previous(),
        NonJoining | Right | DalathRish | Transparent => false,
    }
}

/// Whether the form of a letter depends on the one before even where these are not joined.
fn heeds_previous(before: JoiningType, own: JoiningType) -> bool {
    match own {
        Alaph => before.joins_previous(),
        NonJoining | Left | Right | Dual | DalathRish | Transparent => false,
    }
}

/// What a letter leaves to be said of the place before it: whether the letter before in the text heeds
/// it, and its own type.
fn tie_of(is_heeded: bool, own: JoiningType) -> Tie {
    match (is_heeded, own.joins_previous()) {
        (true, true) => Tie::SafeToInsertTatweel,
        (false, false) => Tie::Loose,
        _ => Tie::UnsafeToConcat,
    }
}

/// Flags the places between letters, by the types that the items keep. `before` is the nearest letter
/// before the text, and `behind` the nearest behind it, if one is known.
///
/// # Requires
///
/// - `buffer.old.have_output ≡ false`
pub(crate) fn flag_joins(
    buffer: &mut hb_buffer_t,
    before: JoiningType,
    behind: Option<JoiningType>,
) {
    debug_assert!(!buffer.have_output());
    let mut last = LastLetter {
        place: None,
        kind: before,
        heeds_next: false,
        formed_by: None,
    };
    for i in 0..buffer.len() {
        let own = kind_at(buffer.info(), i);
        if own != Transparent {
            flag_join(buffer, &last, own, i + 1);
            last = letter_behind(&last, own, i);
        }
    }
    flag_end(buffer, &last, behind);
}

/// The letter of a type at a place, behind the last one.
fn letter_behind(last: &LastLetter, own: JoiningType, place: usize) -> LastLetter {
    let letter = LastLetter {
        place: Some(place),
        kind: own,
        heeds_next: heeds_next(last.kind, own),
        formed_by: None,
    };
    if last.heeds_next || !heeds_previous(last.kind, own) {
        return letter;
    }
    LastLetter {
        formed_by: last.place,
        ..letter
    }
}

/// The type of the item at a place.
fn kind_at(infos: &[hb_glyph_info_t], place: usize) -> JoiningType {
    if place < infos.len() {
        kind(&infos[place])
    } else {
        NonJoining
    }
}

/// Flags the place before a letter, which ends at a place.
///
/// # Requires
///
/// - `buffer.old.have_output ≡ false`
fn flag_join(buffer: &mut hb_buffer_t, last: &LastLetter, own: JoiningType, end: usize) {
    debug_assert!(!buffer.have_output());
    flag_formed(buffer, last.formed_by, last.place, own);
    flag_behind(buffer, last.place, last.heeds_next, own, end);
}

/// Flags the place between the last letter, or the beginning of the text, and a letter that ends at a
/// place.
///
/// # Requires
///
/// - `buffer.old.have_output ≡ false`
fn flag_behind(
    buffer: &mut hb_buffer_t,
    place: Option<usize>,
    is_heeded: bool,
    own: JoiningType,
    end: usize,
) {
    debug_assert!(!buffer.have_output());
    match place {
        Some(start) => flag_between(buffer, tie_of(is_heeded, own), start, end),
        None => {
            if own.joins_previous() {
                buffer.unsafe_to_concat_from_outbuffer(Some(0), Some(end));
            }
        }
    }
}

/// Flags the end of the text: its last letter may have its form by the letter before it, and heed the
/// letter behind it, if one is known.
///
/// # Requires
///
/// - `buffer.old.have_output ≡ false`
fn flag_end(buffer: &mut hb_buffer_t, last: &LastLetter, behind: Option<JoiningType>) {
    debug_assert!(!buffer.have_output());
    let next = behind.unwrap_or(NonJoining);
    flag_formed(buffer, last.formed_by, last.place, next);
    flag_before(buffer, last.place, last.heeds_next, behind);
}

/// Flags the text from its last letter on, if that heeds the letter behind it, and one is known.
///
/// # Requires
///
/// - `buffer.old.have_output ≡ false`
fn flag_before(
    buffer: &mut hb_buffer_t,
    at: Option<usize>,
    heeds: bool,
    next: Option<JoiningType>,
) {
    debug_assert!(!buffer.have_output());
    if let Some(start) = at {
        if let Some(own) = next {
            if heeds {
                let end = buffer.len();
                flag_between(buffer, tie_of(true, own), start, end);
            }
        }
    }
}

/// Flags the place before the last letter, where that has its form by the letter before, and not by the
/// next one, which is of a type.
///
/// # Requires
///
/// - `buffer.old.have_output ≡ false`
fn flag_formed(
    buffer: &mut hb_buffer_t,
    from: Option<usize>,
    at: Option<usize>,
    next: JoiningType,
) {
    debug_assert!(!buffer.have_output());
    match from {
        Some(from) => match at {
            Some(place) => keep_formed(buffer, from, place, next),
            None => {}
        },
        None => {}
    }
}

/// Flags what lies between a letter and the one that it has its form by, unless the next one joins to
/// it.
///
/// # Requires
///
/// - `buffer.old.have_output ≡ false`
fn keep_formed(buffer: &mut hb_buffer_t, from: usize, place: usize, next: JoiningType) {
    debug_assert!(!buffer.have_output());
    if from <= place && place < buffer.len() && !next.joins_previous() {
        buffer.unsafe_to_break(Some(from), Some(place + 1));
    }
}

/// Flags the glyphs from a letter to the end of the next, if both are in the text.
///
/// # Requires
///
/// - `buffer.old.have_output ≡ false`
fn flag_between(buffer: &mut hb_buffer_t, tie: Tie, start: usize, end: usize) {
    debug_assert!(!buffer.have_output());
    if start > end || end > buffer.len() {
        return;
    }
    match tie {
        Tie::Loose => {}
        Tie::UnsafeToConcat => buffer.unsafe_to_concat(Some(start), Some(end)),
        Tie::SafeToInsertTatweel => buffer.safe_to_insert_tatweel(Some(start), Some(end)),
    }
}
