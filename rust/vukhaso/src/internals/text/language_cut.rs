// Written by tools/plain_rust from crates/rb_text. Do not edit.

//! How the text of a language is cut: what is for private use, the prefix before it, and the subtag of the
//! prefix that is looked up in a table.

/// The least length of a prefix whose second subtag can be an extended language.
pub(crate) const EXTENDED_PREFIX_MIN: usize = 6;

/// What is left of a text from the first place on where the mark stands.
pub(crate) fn from_first<'a>(mark: &[u8], text: &'a [u8]) -> Option<&'a [u8]> {
    let mut rest = text;
    while let [_, tail @ ..] = rest {
        if rest.starts_with(mark) {
            return Some(rest);
        }
        rest = tail;
    }
    None
}

/// The part of a language that is for private use.
pub(crate) fn private_use(language: &[u8]) -> Option<&[u8]> {
    if language.starts_with(b"x-") {
        return Some(language);
    }
    let rest = from_first(b"-x-", language)?;
    Some(&rest[1..])
}

/// The prefix of a language.
pub(crate) fn prefix(language: &str) -> &str {
    let bytes = language.as_bytes();
    if bytes.starts_with(b"x-") {
        return "";
    }
    if bytes.starts_with(b"-x-") {
        return "-";
    }
    &language[..before_singleton(bytes)]
}

/// How many bytes stand before the `-` of the first singleton, or how many there are. A singleton whose
/// `-` is the first byte does not count.
fn before_singleton(text: &[u8]) -> usize {
    for i in 1..text.len().saturating_sub(2) {
        if text[i] == b'-' && text[i + 2] == b'-' {
            return i;
        }
    }
    text.len()
}

/// The subtag of a prefix that is looked up in a table.
pub(crate) fn key(prefix: &[u8]) -> &[u8] {
    let first = first_subtag(prefix);
    if prefix.len() >= EXTENDED_PREFIX_MIN && first.len() < prefix.len() {
        let second = first_subtag(&prefix[first.len() + 1..]);
        if let [a, _, _] = *second {
            if a.is_ascii_alphabetic() {
                return second;
            }
        }
    }
    first
}

/// What stands before the first `-`, or all.
fn first_subtag(prefix: &[u8]) -> &[u8] {
    &prefix[..first_subtag_len(prefix)]
}

/// How many bytes stand before the first `-`, or how many there are.
fn first_subtag_len(prefix: &[u8]) -> usize {
    prefix.iter().take_while(|b| **b != b'-').count()
}
