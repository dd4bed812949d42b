// Written by tools/plain_rust from crates/script_joining. Do not edit.

//! Forms and ligatures of Arabic letters in a font that has them as characters and has no features for them: HarfBuzz's
//! `arabic_fallback_plan_t`, as the bytes of a table `GSUB`.

use crate::memory::{AllocError, Vec};
use crate::script_items::font::FontGlyphs;
use crate::script_joining::arabic::lookup_bytes::{
    LigatureRow, ligature_lookup, single_lookup, table_of,
};
use crate::script_joining::arabic::presentation_rows::{
    LETTERS, LIGATURES_OF_MARKS, LIGATURES_OF_THREE, LIGATURES_OF_TWO,
};
use crate::script_joining::joining::form::ArabicAction::{self, Fina, Init, Isol, Medi};

/// The flag of a lookup that passes over marks.
const IGNORE_MARKS: u16 = 8;

/// The forms of letters, in the order of their lookups and of the columns of the rows.
const FORMS: [ArabicAction; 4] = [Init, Medi, Fina, Isol];

/// Lookups that are made from the characters of a font.
#[derive(Debug)]
pub struct FallbackLookups {
    /// A table `GSUB` that has these lookups, and no features.
    pub table: Vec<u8>,
    /// The mask of the glyphs that each lookup is applied to, by the lookups' numbers.
    pub masks: Vec<u32>,
}

/// Lookups that are being collected.
#[derive(Debug)]
struct Collected {
    lookups: Vec<Vec<u8>>,
    masks: Vec<u32>,
}

impl FallbackLookups {
    /// The lookups of a font that has no forms of Arabic letters, for the masks of the forms, by their
    /// numbers, and of `rlig`: the initial, medial, final and isolated forms, and then ligatures of three
    /// letters, of two and of marks. There are none where the font has no such characters, and none for
    /// glyphs of no mask.
    ///
    /// # Errors
    ///
    /// `Err(AllocError)` where memory runs out.
    ///
    /// # Proved
    ///
    /// ```text
    /// ensures few { IfOk result (λ fallback. length fallback.masks.items ≤ 7) }
    /// ensures masks { IfOk result (λ fallback. All (λ mask. mask ≢ 0) fallback.masks.items) }
    /// ```
    pub fn new<F: FontGlyphs>(
        font: &F,
        masks: &[u32; 8],
        rlig_mask: u32,
    ) -> Result<FallbackLookups, AllocError> {
        let mut collected = Collected {
            lookups: Vec::new(),
            masks: Vec::new(),
        };
        for column in 0..FORMS.len() {
            let number = usize::from(FORMS[column].number());
            let mask = masks.get(number).copied().unwrap_or(0);
            collected.add_forms(font, column, mask)?;
        }
        collected.add_three(font, rlig_mask)?;
        collected.add_two(font, &LIGATURES_OF_TWO, IGNORE_MARKS, rlig_mask)?;
        collected.add_two(font, &LIGATURES_OF_MARKS, 0, rlig_mask)?;
        let Collected { lookups, masks, .. } = collected;
        Ok(FallbackLookups {
            table: table_of(lookups.as_slice())?,
            masks,
        })
    }
}

impl Collected {
    /// Adds a lookup, where there is one and a glyph may have its mask.
    fn add(&mut self, lookup: Option<Vec<u8>>, mask: u32) -> Result<(), AllocError> {
        if let Some(lookup) = lookup {
            if mask != 0 {
                self.lookups.push(lookup)?;
                self.masks.push(mask)?;
            }
        }
        Ok(())
    }

    /// Adds the lookup of a form of letters: the font's glyph of the letter becomes that of the form.
    fn add_forms<F: FontGlyphs>(
        &mut self,
        font: &F,
        column: usize,
        mask: u32,
    ) -> Result<(), AllocError> {
        let mut pairs = Vec::new();
        for (letter, forms) in LETTERS.iter() {
            let form = forms.get(column).copied().unwrap_or(0);
            if form != 0 {
                if let Some(from) = font.glyph_of(u32::from(*letter)) {
                    if let Some(to) = font.glyph_of(u32::from(form)) {
                        if from != to {
                            if let Err(place) = pairs.binary_search_by_key(&from, first_of_pair) {
                                pairs.insert(place, (from, to))?;
                            }
                        }
                    }
                }
            }
        }
        let lookup = single_lookup(IGNORE_MARKS, pairs.as_slice())?;
        self.add(lookup, mask)
    }

    /// Adds the lookup of ligatures of three letters.
    fn add_three<F: FontGlyphs>(&mut self, font: &F, mask: u32) -> Result<(), AllocError> {
        let mut rows = Vec::new();
        for (parts, ligature) in LIGATURES_OF_THREE.iter() {
            let [first, second, third] = *parts;
            if let Some(third) = font.glyph_of(u32::from(third)) {
                add_row(&mut rows, font, [first, second], Some(third), *ligature)?;
            }
        }
        let lookup = ligature_lookup(IGNORE_MARKS, rows.as_slice())?;
        self.add(lookup, mask)
    }

    /// Adds the lookup of ligatures of two letters, or of two marks.
    fn add_two<F: FontGlyphs>(
        &mut self,
        font: &F,
        ligatures: &[([u16; 2], u16)],
        flag: u16,
        mask: u32,
    ) -> Result<(), AllocError> {
        let mut rows = Vec::new();
        for (parts, ligature) in ligatures {
            add_row(&mut rows, font, *parts, None, *ligature)?;
        }
        let lookup = ligature_lookup(flag, rows.as_slice())?;
        self.add(lookup, mask)
    }
}

/// The first glyph of a pair.
fn first_of_pair(pair: &(u16, u16)) -> u16 {
    pair.0
}

/// Adds a ligature behind those that begin with no greater glyph, if the font has glyphs for all of it.
fn add_row<F: FontGlyphs>(
    rows: &mut Vec<LigatureRow>,
    font: &F,
    parts: [u16; 2],
    third: Option<u16>,
    ligature: u16,
) -> Result<(), AllocError> {
    let [first, second] = parts;
    if let Some(first) = font.glyph_of(u32::from(first)) {
        if let Some(second) = font.glyph_of(u32::from(second)) {
            if let Some(ligature) = font.glyph_of(u32::from(ligature)) {
                let place = rows.partition_point(|row| row.first <= first);
                rows.insert(
                    place,
                    LigatureRow {
                        first,
                        second,
                        third,
                        ligature,
                    },
                )?;
            }
        }
    }
    Ok(())
}
