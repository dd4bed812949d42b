// Written by tools/plain_rust from crates/ot_tags. Do not edit.

//! The rows of the registry.

use crate::ot_tags::language_rows::LANGUAGE_ROWS;
use crate::ot_tags::tags_of_language::LanguageTags;
use crate::text::{Tag, TagExt};
use core::cmp::Ordering;

/// How many bytes a row has: a code of three, three tags, and the end of the line.
const ROW_LEN: usize = 16;

/// The tags of a code of two or three letters, of which there may be none; `None` where the registry
/// does not have it.
pub(crate) fn registered_tags(code: &[u8]) -> Option<LanguageTags> {
    match *code {
        [a, b] => tags_of_code(&[a, b, b'-']),
        [a, b, c] => tags_of_code(&[a, b, c]),
        _ => None,
    }
}

/// The tags in the row of a code.
fn tags_of_code(code: &[u8; 3]) -> Option<LanguageTags> {
    let row = row_of(registry(), code)?;
    Some(LanguageTags {
        first: tag_at(row, 3),
        second: tag_at(row, 7),
        third: tag_at(row, 11),
    })
}

/// The rows of the registry, one after the other.
fn registry() -> &'static [u8] {
    LANGUAGE_ROWS.as_bytes()
}

/// The row of a code, found by bisection of rows whose codes rise.
///
/// # Requires
///
/// - `codes_rise (rows_of rows.now) ≡ true`
fn row_of<'a>(rows: &'a [u8], code: &[u8; 3]) -> Option<&'a [u8]> {
    let mut low = 0;
    let mut high = rows.len() / ROW_LEN;
    while low < high {
        let middle = low + (high - low) / 2;
        let row = row_at(rows, middle);
        match order(row, code) {
            Ordering::Less => low = middle + 1,
            Ordering::Equal => return Some(row),
            Ordering::Greater => high = middle,
        }
    }
    None
}

/// The row of this number.
///
/// # Requires
///
/// - `number < length rows.now / 16`
fn row_at(rows: &[u8], number: usize) -> &[u8] {
    &rows[ROW_LEN * number..ROW_LEN * number + ROW_LEN]
}

/// How the code of a row is to a code.
///
/// # Requires
///
/// - `3 ≤ length row.now`
fn order(row: &[u8], code: &[u8; 3]) -> Ordering {
    debug_assert!(3 <= row.len());
    row[..3].cmp(&code[..])
}

/// The tag at a place of a row; `None` where it begins with `-`.
fn tag_at(row: &[u8], at: usize) -> Option<Tag> {
    match *row.get(at..)? {
        [a, b, c, d, ..] if a != b'-' => Some(Tag::from_bytes(&[a, b, c, d])),
        _ => None,
    }
}

/// A subtag of three letters is its own tag, in capitals.
pub(crate) fn own_tag(subtag: &[u8]) -> LanguageTags {
    if subtag.len() != 3 {
        return LanguageTags::none();
    }
    LanguageTags {
        first: Some(Tag::from_bytes_lossy(subtag).to_uppercase()),
        second: None,
        third: None,
    }
}
