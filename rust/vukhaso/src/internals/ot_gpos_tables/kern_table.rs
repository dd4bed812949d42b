// Written by tools/plain_rust from crates/ot_gpos_tables. Do not edit.

//! The table `kern`: how far the glyphs of a pair are moved towards each other (OpenType specification, "kern - Kerning", and
//! Apple's TrueType Reference Manual, "The 'kern' table"). Of its formats 0 and 2 are read: pairs of glyphs, and pairs of
//! classes. Those of state machines and of indexed classes are passed over.

use crate::font_tables::bisection::row_with;
use crate::font_tables::bytes::{i16_at, part, tail, u8_at, u16_at, u32_at};
use crate::font_tables::rows::rows_within;
use crate::ot_gpos_tables::sorted_rows::Keys32;

/// What the values of a subtable are for.
#[derive(Clone, Copy, Debug)]
pub struct KernCoverage {
    /// They are for horizontal lines, and else for vertical ones.
    pub is_horizontal: bool,
    /// They move the second glyph across the line, and not along it.
    pub is_cross_stream: bool,
    /// They are for variations of the font, which is not supported.
    pub is_variation: bool,
}

/// A subtable.
#[derive(Clone, Copy, Debug)]
pub struct KernSubtable<'a> {
    /// Its bytes, with its header; those of the last subtable go up to the end of the table.
    pub table: &'a [u8],
    /// How many bytes its header has.
    pub header: u8,
    /// Its format.
    pub format: u8,
    /// What its values are for.
    pub coverage: KernCoverage,
    /// How many bytes it says that it has.
    pub length: usize,
}

/// A table `kern`.
#[derive(Clone, Copy, Debug)]
pub struct KernTable<'a> {
    /// The bytes of the table.
    pub table: &'a [u8],
    /// Whether its headers are Apple's.
    pub is_apple: bool,
    /// How many subtables it has.
    pub count: u32,
}

impl<'a> KernTable<'a> {
    /// The table `kern` in these bytes: of Windows, with the version 0, or of Apple, with the version 1.
    /// Where a subtable is cut short, or the version is another one, the table has no subtables.
    ///
    /// # Proved
    ///
    /// ```text
    /// ensures table { result.table.now ≡ table.now }
    /// ensures form { result.is_apple ≡ is_apple table.now }
    /// ensures count { result.count ≢ 0 → result.count ≡ declared_count table.now }
    /// ensures whole { result.count ≡ subtable_count table.now }
    /// ```
    #[inline]
    pub fn new(table: &'a [u8]) -> Self {
        let (is_apple, count) = declared(table);
        let kern = KernTable {
            table,
            is_apple,
            count,
        };
        if kern.is_whole() {
            kern
        } else {
            KernTable {
                table,
                is_apple,
                count: 0,
            }
        }
    }

    /// Where the first subtable begins.
    ///
    /// # Proved
    ///
    /// ```text
    /// ensures { result ≡ (if self.now.is_apple then 8 else 4) }
    /// ```
    #[inline]
    pub fn start(&self) -> usize {
        if self.is_apple { 8 } else { 4 }
    }

    /// The subtable that begins at a place, whose number is this one; `None` where its header, or what it
    /// says that it has, does not lie in the table.
    ///
    /// # Proved
    ///
    /// ```text
    /// ensures length { option_map (λ s. s.length) result
    ///     ≡ subtable_length self.now.is_apple (drop at self.now.table.now) }
    /// ensures header { IfSome result (IsHeader self.now.is_apple (drop at self.now.table.now)) }
    /// ensures bytes { IfSome result (λ s. s.table.now
    ///     ≡ subtable_bytes (nat_le self.now.count (number + 1)) s.length (drop at self.now.table.now)) }
    /// ```
    #[inline]
    pub fn subtable_at(&self, at: usize, number: u32) -> Option<KernSubtable<'a>> {
        let rest = tail(self.table, at);
        let subtable = subtable_of(rest, self.is_apple)?;
        if subtable.length < usize::from(subtable.header) || rest.len() < subtable.length {
            return None;
        }
        let bytes = if number.saturating_add(1) < self.count {
            part(rest, 0, subtable.length)
        } else {
            rest
        };
        Some(KernSubtable {
            table: bytes,
            ..subtable
        })
    }

    /// Whether each subtable lies in the table, with the pairs that it says that it has.
    fn is_whole(&self) -> bool {
        let mut at = self.start();
        for number in 0..self.count {
            let Some(subtable) = self.subtable_at(at, number) else {
                return false;
            };
            if !subtable.has_its_pairs() {
                return false;
            }
            at = at.saturating_add(subtable.length);
        }
        true
    }

    /// Whether the table has any subtables.
    ///
    /// # Proved
    ///
    /// ```text
    /// ensures { result ≡ not (nat_eq self.now.count 0) }
    /// ```
    #[inline]
    pub fn has_kerning(&self) -> bool {
        self.count != 0
    }

    /// Whether a subtable is a state machine, which may also attach marks.
    ///
    /// # Proved
    ///
    /// ```text
    /// ensures { result ≡ has_subtable is_machine self.now }
    /// ```
    #[inline]
    pub fn has_machine_kerning(&self) -> bool {
        self.has(Property::Machine)
    }

    /// Whether a subtable moves glyphs across the line.
    ///
    /// # Proved
    ///
    /// ```text
    /// ensures { result ≡ has_subtable is_crossing self.now }
    /// ```
    #[inline]
    pub fn has_cross_kerning(&self) -> bool {
        self.has(Property::CrossStream)
    }

    /// Whether a subtable has this property.
    fn has(&self, property: Property) -> bool {
        let mut at = self.start();
        for number in 0..self.count {
            let Some(subtable) = self.subtable_at(at, number) else {
                return false;
            };
            if subtable.has(property) {
                return true;
            }
            at = at.saturating_add(subtable.length);
        }
        false
    }
}

/// What is asked of the subtables.
#[derive(Clone, Copy, PartialEq, Eq, Debug)]
enum Property {
    /// It is a state machine.
    Machine,
    /// It moves glyphs across the line.
    CrossStream,
}

/// Whether the headers of a table are Apple's, and how many subtables it declares, by its version.
fn declared(table: &[u8]) -> (bool, u32) {
    match u16_at(table, 0) {
        Some(0) => (false, u32::from(u16_at(table, 2).unwrap_or(0))),
        Some(1) => (true, u32_at(table, 4).unwrap_or(0)),
        _ => (false, 0),
    }
}

/// A subtable, by the header of Apple or of Windows.
fn subtable_of(rest: &[u8], is_apple: bool) -> Option<KernSubtable<'_>> {
    if is_apple {
        apple_subtable(rest)
    } else {
        windows_subtable(rest)
    }
}

/// A subtable with the header of Windows: its version, its length, its format, and what its values are
/// for.
fn windows_subtable(rest: &[u8]) -> Option<KernSubtable<'_>> {
    let coverage = u8_at(rest, 5)?;
    Some(KernSubtable {
        table: rest,
        header: 6,
        format: u8_at(rest, 4)?,
        coverage: KernCoverage {
            is_horizontal: coverage & 0x01 != 0,
            is_cross_stream: coverage & 0x04 != 0,
            is_variation: false,
        },
        length: usize::from(u16_at(rest, 2)?),
    })
}

/// A subtable with the header of Apple: its length, what its values are for, its format, and a
/// variation.
fn apple_subtable(rest: &[u8]) -> Option<KernSubtable<'_>> {
    let coverage = u8_at(rest, 4)?;
    let _variation = u16_at(rest, 6)?;
    Some(KernSubtable {
        table: rest,
        header: 8,
        format: u8_at(rest, 5)?,
        coverage: KernCoverage {
            is_horizontal: coverage & 0x80 == 0,
            is_cross_stream: coverage & 0x40 != 0,
            is_variation: coverage & 0x20 != 0,
        },
        length: u32_at(rest, 0)? as usize,
    })
}

impl KernSubtable<'_> {
    /// The value of a pair, in font units: 0 where the subtable has none, or is of another format than 0
    /// and 2.
    ///
    /// # Proved
    ///
    /// ```text
    /// ensures { result ≡ kerning self.now left right }
    /// ```
    #[inline]
    pub fn kerning(&self, left: u16, right: u16) -> i16 {
        match self.format {
            0 => pair_value(self.table, self.header, left, right).unwrap_or(0),
            2 => classed_value(self.table, self.header, left, right),
            _ => 0,
        }
    }

    /// Whether it has this property.
    fn has(&self, property: Property) -> bool {
        match property {
            Property::Machine => self.format == 1,
            Property::CrossStream => self.coverage.is_cross_stream,
        }
    }

    /// Whether the pairs of a subtable of format 0 lie in it.
    fn has_its_pairs(&self) -> bool {
        let start = usize::from(self.header);
        let count = usize::from(u16_at(self.table, start).unwrap_or(0));
        self.format != 0 || start + 8 + 6 * count <= self.table.len()
    }
}

/// The value of a pair in a subtable of format 0, whose row is found by bisection, as the rows rise by
/// their two glyphs; `None` where there is no row.
///
/// # Proved
///
/// ```text
/// ensures { result ≡ pair_value subtable.now header left right }
/// ```
#[inline]
pub fn pair_value(subtable: &[u8], header: u8, left: u16, right: u16) -> Option<i16> {
    let row = pair_row(subtable, usize::from(header), left, right)?;
    Some(value_of_row(subtable, usize::from(header), row))
}

/// The row of a pair in a subtable of format 0. Where the rows rise by their two glyphs, none is
/// missed.
///
/// # Requires
///
/// - `header < 256`
///
/// # Proved
///
/// ```text
/// ensures is { result ≡ pair_row subtable.now header left right }
/// ensures within { IfSome result (λ row. row < 65536) }
/// ensures all { let count = pair_count subtable.now header in
///     AreInOrder (beside_pair subtable.now header left right) count → result ≡ None
///     → (row : ℕ) → row < count → beside_pair subtable.now header left right row ≡ Some Equal → ⊥ }
/// ```
#[inline]
pub fn pair_row(subtable: &[u8], header: usize, left: u16, right: u16) -> Option<usize> {
    debug_assert!(header < 256);
    let rows = Keys32 {
        table: subtable,
        start: header + 8,
        size: 6,
    };
    let declared = usize::from(u16_at(subtable, header).unwrap_or(0));
    let count = rows_within(subtable, header + 8, 6, declared);
    row_with(&rows, count, u32::from(left) * 65536 + u32::from(right))
}

/// The value in a row of a subtable of format 0.
///
/// # Requires
///
/// - `header: header < 256`
/// - `row: row < 65536`
fn value_of_row(subtable: &[u8], header: usize, row: usize) -> i16 {
    debug_assert!(header < 256);
    debug_assert!(row < 65536);
    i16_at(subtable, header + 12 + 6 * row).unwrap_or(0)
}

/// The value of a pair in a subtable of format 2: that of its classes. A glyph that is in no class has
/// none.
///
/// # Proved
///
/// ```text
/// ensures { result ≡ classed_value subtable.now header left right }
/// ```
#[inline]
pub fn classed_value(subtable: &[u8], header: u8, left: u16, right: u16) -> i16 {
    let start = usize::from(header);
    let lefts = tail(subtable, offset_at(subtable, start + 2));
    let rights = tail(subtable, offset_at(subtable, start + 4));
    match class_number(lefts, left) {
        Some(first) => match class_number(rights, right) {
            Some(second) => {
                let at = usize::from(first) + usize::from(second);
                value_at(subtable, offset_at(subtable, start + 6), at)
            }
            None => 0,
        },
        None => 0,
    }
}

/// The offset at a place, and 0 outside of the table.
fn offset_at(table: &[u8], at: usize) -> usize {
    usize::from(u16_at(table, at).unwrap_or(0))
}

/// The number of a glyph in a list of numbers; `None` where the list does not have the glyph.
fn class_number(classes: &[u8], glyph: u16) -> Option<u16> {
    let first = u16_at(classes, 0).unwrap_or(0);
    let count = u16_at(classes, 2).unwrap_or(0);
    if first <= glyph && glyph - first < count {
        u16_at(classes, 4 + 2 * usize::from(glyph - first))
    } else {
        None
    }
}

/// The value at a place, not before the array of values.
///
/// # Requires
///
/// - `array < 65536`
fn value_at(subtable: &[u8], array: usize, at: usize) -> i16 {
    debug_assert!(array < 65536);
    if array <= at {
        i16_at(subtable, array + 2 * ((at - array) / 2)).unwrap_or(0)
    } else {
        0
    }
}
