// Written by tools/plain_rust from crates/ot_lookups. Do not edit.

//! Tables of layout with more subtables than HarfBuzz reads.

use crate::font_tables::bytes::{table_at_16, u16_at};
use crate::ot_lookups::subtable::table_or_empty;

/// The lookups of a table have fewer subtables.
pub(crate) const MAX_SUBTABLES: usize = 0x4000;

/// So many broken offsets HarfBuzz mends in a table.
const MAX_EDITS: usize = 32;

/// Whether HarfBuzz refuses a table `GSUB` or `GPOS` for its subtables.
///
/// # Proved
///
/// ```text
/// ensures { result ≡ is_refused table.now }
/// ```
#[inline]
pub fn is_refused(table: &[u8]) -> bool {
    let list = table_or_empty(table, 8);
    let count = lookup_count(list);
    subtables_of_first(list, count) >= MAX_SUBTABLES && offsets_of_first(list, count) > MAX_EDITS
}

/// How many lookups a list declares.
pub(crate) fn lookup_count(list: &[u8]) -> usize {
    usize::from(u16_at(list, 0).unwrap_or(0))
}

/// How many subtables the first lookups of a list have, of which there are so many.
///
/// # Requires
///
/// - `count < 65536`
pub(crate) fn subtables_of_first(list: &[u8], count: usize) -> usize {
    debug_assert!(count < 65536);
    let mut subtables: usize = 0;
    for index in 0..count {
        subtables += subtable_count(table_or_empty(list, 2 + 2 * index));
    }
    subtables
}

/// How many subtables a lookup has, if their offsets lie in the table.
pub(crate) fn subtable_count(lookup: &[u8]) -> usize {
    let count = usize::from(u16_at(lookup, 4).unwrap_or(0));
    if 6 + 2 * count <= lookup.len() {
        count
    } else {
        0
    }
}

/// How many of the first offsets of a list are not null.
///
/// # Requires
///
/// - `count < 65536`
fn offsets_of_first(list: &[u8], count: usize) -> usize {
    debug_assert!(count < 65536);
    let mut offsets: usize = 0;
    for index in 0..count {
        if table_at_16(list, 2 + 2 * index).is_some() {
            offsets += 1;
        }
    }
    offsets
}
