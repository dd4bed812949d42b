// Written by tools/plain_rust from crates/ot_tags. Do not edit.

//! How a language is cut into its subtags.

/// The part of a language that says which language it is: what stands before the `-` of the first
/// singleton, or all. What is all for private use has no such part.
pub(crate) fn prefix(language: &[u8]) -> &[u8] {
    if language.starts_with(b"x-") {
        return &[];
    }
    &language[..before_singleton(language)]
}

/// How many bytes stand before the `-` of the first singleton, or how many there are.
fn before_singleton(text: &[u8]) -> usize {
    for i in 1..text.len().saturating_sub(2) {
        if text[i] == b'-' && text[i + 2] == b'-' {
            return i;
        }
    }
    text.len()
}

/// What stands before the first `-`, and what stands behind it. Where there is none, all stands before
/// it.
pub(crate) fn first_subtag(text: &[u8]) -> (&[u8], &[u8]) {
    let len = first_subtag_len(text);
    if len < text.len() {
        (&text[..len], &text[len + 1..])
    } else {
        (text, &[])
    }
}

/// How many bytes stand before the first `-`, or how many there are.
fn first_subtag_len(text: &[u8]) -> usize {
    text.iter().take_while(|b| **b != b'-').count()
}

/// Whether a text is this one.
pub(crate) fn is_same(text: &[u8], other: &[u8]) -> bool {
    text == other
}

/// Whether one of the subtags is this one.
///
/// # Requires
///
/// - `0 < length subtag.now`
pub(crate) fn has_subtag(subtags: &[u8], subtag: &[u8]) -> bool {
    debug_assert!(!subtag.is_empty());
    let mut rest = subtags;
    while !rest.is_empty() {
        let (first, behind) = first_subtag(rest);
        if is_same(first, subtag) {
            return true;
        }
        rest = behind;
    }
    false
}
