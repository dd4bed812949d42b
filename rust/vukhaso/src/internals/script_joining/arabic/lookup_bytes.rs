// Written by tools/plain_rust from crates/script_joining. Do not edit.

//! Lookups as the bytes of a table `GSUB` (OpenType specification, "GSUB - Glyph Substitution Table").

use crate::memory::{AllocError, Vec};

/// A ligature of two or three glyphs.
#[derive(Clone, Copy, Debug)]
pub(crate) struct LigatureRow {
    pub first: u16,
    pub second: u16,
    pub third: Option<u16>,
    pub ligature: u16,
}

/// Adds a number of 16 bits; one that does not fit is the greatest that does.
pub(crate) fn put(bytes: &mut Vec<u8>, number: usize) -> Result<(), AllocError> {
    let number = u16::try_from(number).unwrap_or(u16::MAX);
    for byte in number.to_be_bytes() {
        bytes.push(byte)?;
    }
    Ok(())
}

/// Adds such numbers, one after the other.
fn put_all(bytes: &mut Vec<u8>, numbers: &[usize]) -> Result<(), AllocError> {
    for number in numbers {
        put(bytes, *number)?;
    }
    Ok(())
}

/// The head of a lookup with one subtable, which follows it.
fn lookup_head(kind: usize, flag: u16) -> Result<Vec<u8>, AllocError> {
    let mut bytes = Vec::new();
    put_all(&mut bytes, &[kind, usize::from(flag), 1, 8])?;
    Ok(bytes)
}

/// A lookup that puts the second glyph of a pair in place of the first; `None` where there are no
/// pairs. The first glyphs rise.
pub(crate) fn single_lookup(
    flag: u16,
    pairs: &[(u16, u16)],
) -> Result<Option<Vec<u8>>, AllocError> {
    if pairs.is_empty() {
        return Ok(None);
    }
    let mut bytes = lookup_head(1, flag)?;
    put_all(&mut bytes, &[2, behind(6, 2, pairs.len()), pairs.len()])?;
    for pair in pairs {
        put(&mut bytes, usize::from(pair.1))?;
    }
    put_all(&mut bytes, &[1, pairs.len()])?;
    for pair in pairs {
        put(&mut bytes, usize::from(pair.0))?;
    }
    Ok(Some(bytes))
}

/// Where a list of `count` items of `size` bytes ends that begins at `start`.
fn behind(start: usize, size: usize, count: usize) -> usize {
    start.saturating_add(size.saturating_mul(count))
}

/// A lookup of ligatures, which are in the order of their first glyphs; `None` where there are none.
pub(crate) fn ligature_lookup(
    flag: u16,
    rows: &[LigatureRow],
) -> Result<Option<Vec<u8>>, AllocError> {
    if rows.is_empty() {
        return Ok(None);
    }
    let sets = set_lengths(rows)?;
    let mut bytes = lookup_head(4, flag)?;
    put_sets(&mut bytes, rows, sets.as_slice())?;
    put_all(&mut bytes, &[1, sets.len()])?;
    let mut at = 0usize;
    for length in sets.iter() {
        if let Some(row) = rows.get(at) {
            put(&mut bytes, usize::from(row.first))?;
        }
        at = at.saturating_add(*length);
    }
    let mut at = 0usize;
    for length in sets.iter() {
        let end = at.saturating_add(*length);
        if let Some(set) = rows.get(at..end) {
            put_set(&mut bytes, set)?;
        }
        at = end;
    }
    Ok(Some(bytes))
}

/// How many ligatures begin with each glyph.
fn set_lengths(rows: &[LigatureRow]) -> Result<Vec<usize>, AllocError> {
    let mut lengths: Vec<usize> = Vec::new();
    let mut last = None;
    for row in rows {
        'chained: {
            if last == Some(row.first) {
                if let Some(length) = lengths.last_mut() {
                    *length = length.saturating_add(1);
                    break 'chained;
                }
            }
            {
                lengths.push(1)?;
            }
        }
        last = Some(row.first);
    }
    Ok(lengths)
}

/// Adds the head of a subtable of ligatures: the coverage stands behind it, and then the sets.
fn put_sets(bytes: &mut Vec<u8>, rows: &[LigatureRow], sets: &[usize]) -> Result<(), AllocError> {
    put_all(bytes, &[1, behind(6, 2, sets.len()), sets.len()])?;
    let mut offset = behind(10, 4, sets.len());
    for length in sets {
        put(bytes, offset)?;
        offset = behind(offset.saturating_add(2), 2 + size_of_row(rows), *length);
    }
    Ok(())
}

/// How many bytes a ligature has: all of a lookup have as many parts.
fn size_of_row(rows: &[LigatureRow]) -> usize {
    match rows {
        [LigatureRow { third: Some(_), .. }, ..] => 8,
        _ => 6,
    }
}

/// Adds the ligatures that begin with one glyph.
fn put_set(bytes: &mut Vec<u8>, rows: &[LigatureRow]) -> Result<(), AllocError> {
    put(bytes, rows.len())?;
    let first = behind(2, 2, rows.len());
    for i in 0..rows.len() {
        put(bytes, behind(first, size_of_row(rows), i))?;
    }
    for row in rows {
        let (ligature, second) = (usize::from(row.ligature), usize::from(row.second));
        match row.third {
            Some(third) => put_all(bytes, &[ligature, 3, second, usize::from(third)])?,
            None => put_all(bytes, &[ligature, 2, second])?,
        }
    }
    Ok(())
}

/// The table of lookups, without scripts and features.
pub(crate) fn table_of(lookups: &[Vec<u8>]) -> Result<Vec<u8>, AllocError> {
    let mut bytes = Vec::new();
    put_all(&mut bytes, &[1, 0, 0, 0, 10, lookups.len()])?;
    let mut offset = behind(2, 2, lookups.len());
    for lookup in lookups {
        put(&mut bytes, offset)?;
        offset = offset.saturating_add(lookup.len());
    }
    for lookup in lookups {
        for byte in lookup.iter() {
            bytes.push(*byte)?;
        }
    }
    Ok(bytes)
}
