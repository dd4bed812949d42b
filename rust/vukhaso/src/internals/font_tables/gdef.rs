// Written by tools/plain_rust from crates/font_tables. Do not edit.

//! Classes of glyphs and sets of marks (OpenType specification, "GDEF - Glyph Definition Table").

use crate::common::GlyphId;
use crate::font_tables::bytes::{table_at_16, table_at_32, u16_at};
use crate::font_tables::class_definition::ClassDefinition;
use crate::font_tables::coverage::Coverage;
use crate::font_tables::glyph_ranges::Run;

/// The glyphs whose properties are found at once.
const FIRST_COUNT: usize = 256;

/// A table `GDEF`, of version 1.
///
/// # Proved
///
/// ```text
/// ghost firsts: { (glyph : ℕ) → glyph < 256 → slice_index first_props glyph ≡ glyph_props table.now glyph }
/// ghost has_classes: { classes.table.now ≡ glyph_classes table.now }
/// ghost has_attachments: { attachments.table.now ≡ mark_attachment_classes table.now }
/// ghost has_sets: { sets.now ≡ mark_glyph_sets table.now }
/// ```
#[derive(Clone, Copy, Debug)]
pub struct Gdef<'a> {
    /// The bytes of the table.
    pub table: &'a [u8],
    classes: ClassDefinition<'a>,
    attachments: ClassDefinition<'a>,
    sets: &'a [u8],
    first_props: [u16; FIRST_COUNT],
}

impl<'a> Gdef<'a> {
    /// The table `GDEF` in these bytes. One that is empty, or of another version, has each glyph in class 0
    /// and no sets.
    ///
    /// # Proved
    ///
    /// ```text
    /// ensures { result.table.now ≡ table.now }
    /// ```
    #[inline]
    pub fn new(table: &'a [u8]) -> Self {
        let classes = ClassDefinition::new(subtable(table, 4));
        let attachments = ClassDefinition::new(subtable(table, 10));
        Gdef {
            table,
            classes,
            attachments,
            sets: mark_glyph_sets(table),
            first_props: first_props(&classes, &attachments),
        }
    }

    /// Whether the table says that it has classes of glyphs. Where it does not, HarfBuzz takes them from
    /// the characters.
    ///
    /// # Proved
    ///
    /// ```text
    /// ensures { result ≡ has_glyph_classes self.now.table.now }
    /// ```
    #[inline]
    pub fn has_glyph_classes(&self) -> bool {
        matches!(u16_at(self.table, 0), Some(1)) && u16_at(self.table, 4).unwrap_or(0) != 0
    }

    /// The class of a glyph: 1 for a base, 2 for a ligature, 3 for a mark, 4 for a component, and 0 where
    /// it has none.
    ///
    /// # Proved
    ///
    /// ```text
    /// ensures { result ≡ glyph_class self.now.table.now glyph.0 }
    /// ```
    #[inline]
    pub fn glyph_class(&self, glyph: GlyphId) -> u16 {
        self.classes.class(glyph)
    }

    /// The class by which a lookup with a mark attachment type chooses marks; 0 where a glyph has none.
    ///
    /// # Proved
    ///
    /// ```text
    /// ensures { result ≡ mark_attachment_class self.now.table.now glyph.0 }
    /// ```
    #[inline]
    pub fn mark_attachment_class(&self, glyph: GlyphId) -> u16 {
        self.attachments.class(glyph)
    }

    /// The set of marks that a lookup with a mark filtering set chooses: a glyph is in it where the
    /// coverage table covers it. It is empty where there is no set with this number. Ask for it once for
    /// each lookup.
    ///
    /// # Proved
    ///
    /// ```text
    /// ensures { result.table.now ≡ mark_glyph_set self.now.table.now set }
    /// ```
    #[inline]
    pub fn mark_glyph_set(&self, set: u16) -> Coverage<'a> {
        Coverage::new(set_in(self.sets, set))
    }

    /// HarfBuzz's properties of a glyph, by its class: 2 for a base, 4 for a ligature, 8 for a mark, with
    /// the mark's attachment class in the eight bits above, and else 0.
    ///
    /// # Proved
    ///
    /// ```text
    /// ensures { result ≡ glyph_props self.now.table.now glyph.0 }
    /// ```
    #[inline]
    pub fn glyph_props(&self, glyph: GlyphId) -> u16 {
        match self.first_props.get(usize::from(glyph.0)) {
            Some(props) => *props,
            None => props_of(&self.classes, &self.attachments, glyph),
        }
    }
}

/// The properties of a glyph, by its class and its attachment class.
fn props_of(
    classes: &ClassDefinition<'_>,
    attachments: &ClassDefinition<'_>,
    glyph: GlyphId,
) -> u16 {
    props_for(classes.class(glyph), attachments, glyph)
}

/// The properties of a glyph of this class. Marks alone have an attachment class.
fn props_for(class: u16, attachments: &ClassDefinition<'_>, glyph: GlyphId) -> u16 {
    match class {
        1 => 2,
        2 => 4,
        3 => 8 + 256 * (attachments.class(glyph) % 256),
        _ => 0,
    }
}

/// The properties of the first glyphs.
fn first_props(
    classes: &ClassDefinition<'_>,
    attachments: &ClassDefinition<'_>,
) -> [u16; FIRST_COUNT] {
    let mut props = [0; FIRST_COUNT];
    let mut glyph = 0;
    while glyph < FIRST_COUNT {
        let run = classes.run_from(GlyphId(glyph as u16));
        let end = FIRST_COUNT.min(run.end as usize);
        if run.value == 3 {
            put_marks(&mut props, glyph, end, &run, attachments);
        } else {
            put_same(&mut props, glyph, end, &run);
        }
        glyph = end;
    }
    props
}

/// Puts the properties of the glyphs of a run of marks, from one glyph to before another, in their
/// places.
///
/// # Requires
///
/// - `end ≤ 256`
#[inline(always)]
fn put_marks(
    props: &mut [u16; FIRST_COUNT],
    start: usize,
    end: usize,
    run: &Run,
    attachments: &ClassDefinition<'_>,
) {
    debug_assert!(end <= 256);
    for glyph in start..end {
        let class = run.value_of(glyph as u32);
        props[glyph] = props_for(class, attachments, GlyphId(glyph as u16));
    }
}

/// The same for a run of other glyphs, whose properties do not depend on an attachment class.
///
/// # Requires
///
/// - `within: end ≤ 256`
/// - `unmarked: run.now.value ≢ 3`
#[inline(always)]
fn put_same(props: &mut [u16; FIRST_COUNT], start: usize, end: usize, run: &Run) {
    debug_assert!(end <= 256);
    let same = match run.value {
        1 => 2,
        2 => 4,
        _ => 0,
    };
    for glyph in start..end {
        props[glyph] = if run.first <= glyph as u32 { same } else { 0 };
    }
}

/// The subtable that the offset at a place leads to.
fn subtable(gdef: &[u8], at: usize) -> &[u8] {
    if matches!(u16_at(gdef, 0), Some(1)) {
        table_at_16(gdef, at).unwrap_or(&[])
    } else {
        &[]
    }
}

/// The sets of marks.
fn mark_glyph_sets(gdef: &[u8]) -> &[u8] {
    if u16_at(gdef, 2).unwrap_or(0) >= 2 {
        subtable(gdef, 12)
    } else {
        &[]
    }
}

/// The coverage table of a set of marks.
fn set_in(sets: &[u8], set: u16) -> &[u8] {
    if matches!(u16_at(sets, 0), Some(1)) && set < u16_at(sets, 2).unwrap_or(0) {
        table_at_32(sets, 4 + 4 * usize::from(set)).unwrap_or(&[])
    } else {
        &[]
    }
}
