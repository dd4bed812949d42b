// Written by tools/plain_rust from crates/rb_text. Do not edit.

//! Tables of the OpenType tags of languages, which a caller hands in.

use crate::common::tag::Tag;
use crate::text::tags::ThreeTags;

/// The OpenType tags of languages: rows of a key and a tag, borrowed as they stand.
///
/// A key is the first subtag of languages of BCP 47 (`en`), or an extended language (`yue`). A key may
/// have many rows, the best first, and the tag of each is one of OpenType's language system tags; the
/// null tag says that there are no more. That the rows are OpenType's is not checked. A look-up is a
/// bisection. A contract sees a table as its rows.
///
/// # Proved
///
/// ```text
/// ghost Value = { List (List ℕ × ℕ) }
/// ghost view = { λ t. rows_of t.rows.now }
/// ghost invariant = { λ t. IsTrue (is_table (rows_of t.rows.now)) }
/// ```
#[derive(Debug)]
pub struct LanguageTable<'a> {
    rows: &'a [(&'a str, Tag)],
}

impl<'a> LanguageTable<'a> {
    /// A table of the rows; `None` unless each key is some small ASCII letters and digits, and no key is
    /// below the one before it in the order of their bytes.
    ///
    /// # Proved
    ///
    /// ```text
    /// ensures { result ≡ (if is_table (rows_of rows.now) then Some (rows_of rows.now) else None) }
    /// ```
    #[inline]
    pub fn new(rows: &'a [(&'a str, Tag)]) -> Option<Self> {
        if is_table(rows) {
            Some(LanguageTable { rows })
        } else {
            None
        }
    }

    /// The tags of the rows with the key, up to a null tag and at most three; `None` where there is no such
    /// row.
    pub(crate) fn tags(&self, key: &[u8]) -> Option<ThreeTags> {
        let rows = rows_from(self.rows, key);
        let [(first, _), ..] = rows else {
            return None;
        };
        if !is_same(first, key) {
            return None;
        }
        let mut tags = ThreeTags::new();
        push_front_tags(rows, key, &mut tags);
        Some(tags)
    }
}

/// The rows from the first one on whose key is not below the one given.
///
/// # Requires
///
/// - `is_table (rows_of rows.now) ≡ Bool.true`
fn rows_from<'a, 'b>(rows: &'b [(&'a str, Tag)], key: &[u8]) -> &'b [(&'a str, Tag)] {
    let start = rows.partition_point(|row| is_below(row.0, key));
    let (_, rest) = rows.split_at(start);
    rest
}

/// Whether a text is below a key in the order of their bytes.
fn is_below(text: &str, key: &[u8]) -> bool {
    text.as_bytes().cmp(key).is_lt()
}

/// Whether a text is the key.
fn is_same(text: &str, key: &[u8]) -> bool {
    text.as_bytes() == key
}

/// Adds the tags of the rows at the front that have the key, up to a null tag and as far as there is
/// room.
fn push_front_tags(rows: &[(&str, Tag)], key: &[u8], tags: &mut ThreeTags) {
    let [(name, tag), rest @ ..] = rows else {
        return;
    };
    if !is_same(name, key) || tag.is_null() || tags.is_full() {
        return;
    }
    tags.push(*tag);
    push_front_tags(rest, key, tags);
}

/// Whether a text is a key.
fn is_key(key: &str) -> bool {
    !key.is_empty() && has_key_bytes(key.as_bytes())
}

/// Whether all bytes are small ASCII letters and digits.
fn has_key_bytes(key: &[u8]) -> bool {
    key.iter()
        .all(|b| b.is_ascii_lowercase() || b.is_ascii_digit())
}

/// Whether rows are a table.
fn is_table(rows: &[(&str, Tag)]) -> bool {
    let mut rest = rows;
    while let [(key, _), tail @ ..] = rest {
        if !is_key(key) {
            return false;
        }
        if let [(next, _), ..] = tail {
            if next < key {
                return false;
            }
        }
        rest = tail;
    }
    true
}
