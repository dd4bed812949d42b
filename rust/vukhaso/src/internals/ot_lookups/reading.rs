// Written by tools/plain_rust from crates/ot_lookups. Do not edit.

//! What is found of subtables while a list of lookups is read.

use crate::font_tables::bytes::u16_at;
use crate::font_tables::class_definition::ClassDefinition;
use crate::glyph_digests::digest::Digest;
use crate::glyph_digests::first_glyphs::{FirstGlyphs, Summaries};
use crate::glyph_digests::summary::Summary;
use crate::ot_lookups::subtable::Subtable;
use crate::ot_lookups::subtable_kind::{ContextFormat, SubtableKind};

/// The classes in these bytes, or none where they are slow to ask.
pub(crate) fn quick_classes(table: &[u8]) -> ClassDefinition<'_> {
    let classes = ClassDefinition::new(table);
    if classes.is_quick() {
        classes
    } else {
        ClassDefinition::new(&[])
    }
}

/// How many coverages a context by coverages has before the cursor, for its input and after it.
pub(crate) fn coverage_numbers(kind: SubtableKind, table: &[u8]) -> Option<(u16, u16, u16)> {
    match kind {
        SubtableKind::Context(ContextFormat::Coverages) => Some((0, u16_at(table, 2)?, 0)),
        SubtableKind::ChainedContext(ContextFormat::Coverages) => {
            let backtrack = u16_at(table, 2)?;
            let input_at = 4 + 2 * usize::from(backtrack);
            let input = u16_at(table, input_at)?;
            let lookahead = u16_at(table, input_at + 2 + 2 * usize::from(input))?;
            Some((backtrack, input, lookahead))
        }
        _ => None,
    }
}

/// Whether a context with so many glyphs in its input and after it asks for one after the cursor.
pub(crate) fn has_next(input: u16, lookahead: u16) -> bool {
    input > 1 || lookahead > 0
}

/// How many offsets or rows a table says that it has at this place.
pub(crate) fn count_at(table: &[u8], at: usize) -> usize {
    usize::from(u16_at(table, at).unwrap_or(0))
}

/// What sums up the glyphs that any of these subtables is for.
pub(crate) fn summaries_of_all(subtables: &[Subtable]) -> Summaries {
    match subtables {
        [only] => Summaries {
            digest: only.digest,
            firsts: only.firsts,
        },
        _ => Summaries {
            digest: digest_of(subtables),
            firsts: firsts_of(subtables),
        },
    }
}

/// The digest of the glyphs that any of these subtables is for.
fn digest_of(subtables: &[Subtable]) -> Digest {
    let mut digest = Digest::new();
    for subtable in subtables {
        digest.add_all(&subtable.digest);
    }
    digest
}

/// Those of the first 256 glyphs that any of these subtables is for.
fn firsts_of(subtables: &[Subtable]) -> FirstGlyphs {
    let mut firsts = FirstGlyphs::none();
    for subtable in subtables {
        firsts.add_all(&subtable.firsts);
    }
    firsts
}
