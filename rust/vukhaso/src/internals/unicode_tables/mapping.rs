// Written by tools/plain_rust from crates/unicode_tables. Do not edit.

//! The canonical decomposition of a character in one step, found from the full one.

use crate::ucd_normal::{canonical_decomposition, composite};

/// The characters that no pair composes to and that are the first part of another one's decomposition.
static HEADS: [char; 4] = ['\u{fb49}', '\u{1d15f}', '\u{1d1bb}', '\u{1d1bc}'];

/// The character that the characters compose to, taken from the first on.
fn whole_of(chars: &[char]) -> Option<char> {
    let (first, rest) = chars.split_first()?;
    let mut whole = *first;
    for c in rest {
        whole = composite(whole, *c)?;
    }
    Some(whole)
}

/// The first of `HEADS` that decomposes to these characters.
fn listed_head(chars: &[char]) -> Option<char> {
    HEADS
        .iter()
        .copied()
        .find(|head| canonical_decomposition(*head) == chars)
}

/// The character that decomposes to these characters.
fn head_of(chars: &[char]) -> Option<char> {
    match whole_of(chars) {
        Some(whole) => Some(whole),
        None => listed_head(chars),
    }
}

/// The last character, behind the one that the others are the decomposition of.
///
/// # Requires
///
/// - `0 < length full.now`
fn pair_of(full: &[char]) -> Option<(char, Option<char>)> {
    debug_assert!(!full.is_empty());
    let last = full.len() - 1;
    let second = full[last];
    head_of(&full[..last]).map(|head| (head, Some(second)))
}

/// The parts of a character in one step, from its full decomposition.
fn step_of(c: char, full: &[char]) -> Option<(char, Option<char>)> {
    if full.is_empty() {
        return None;
    }
    match whole_of(full) {
        None => pair_of(full),
        Some(whole) if whole == c => pair_of(full),
        Some(whole) => Some((whole, None)),
    }
}

/// The parts that the character decomposes to in one step: the first, and the second if there are two.
pub(crate) fn mapping(c: char) -> Option<(char, Option<char>)> {
    step_of(c, canonical_decomposition(c))
}
