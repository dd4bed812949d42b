//! `hb-ot-layout.h`: what the tables `GSUB`, `GPOS`, `GDEF` and `BASE` say (OpenType specification, "OpenType Layout Common Table
//! Formats").

mod baselines;
mod classes;
mod closure;
mod collect;
mod collected;
mod features;
mod glyphs;
mod rules;

pub use closure::hb_ot_layout_lookups_substitute_closure;
pub use features::hb_ot_layout_get_size_params;

use crate::face::hb_face_t;
use crate::font::hb_font_t;
use crate::sfnt::{at_16, at_32, tail, u16_at, u32_at};
use crate::types::{hb_bool_t, hb_tag_t, put, put_part, slice, tag};
use std::ffi::c_uint;
use vukhaso::internals::font_variations::VariationStore;
use vukhaso::internals::ot_gpos_tables::devices::device_delta;

/// The index that stands for none, and for the default language of a script.
const NONE: c_uint = 0xFFFF;
pub const GSUB: hb_tag_t = tag(b"GSUB");
pub const GPOS: hb_tag_t = tag(b"GPOS");
/// The form of a device table that names a delta of variations.
const VARIATION: u16 = 0x8000;

/// A table of scripts, features and lookups.
#[derive(Clone, Copy)]
struct Table<'a>(&'a [u8]);

/// A list of records with a tag and an offset from the list's start.
#[derive(Clone, Copy)]
struct Records<'a> {
    /// What the offsets are from.
    base: &'a [u8],
    records: &'a [u8],
    count: usize,
}

impl<'a> Records<'a> {
    fn new(base: &'a [u8], at: usize) -> Self {
        let records = tail(base, at + 2);
        Records { base, records, count: usize::from(u16_at(base, at)).min(records.len() / 6) }
    }

    fn tag(&self, index: usize) -> Option<hb_tag_t> {
        (index < self.count).then(|| u32_at(self.records, 6 * index))
    }

    fn tags(self) -> impl ExactSizeIterator<Item = hb_tag_t> {
        (0..self.count).map(move |index| u32_at(self.records, 6 * index))
    }

    fn find(&self, tag: hb_tag_t) -> Option<usize> {
        self.tags().position(|other| other == tag)
    }

    fn table(&self, index: usize) -> &'a [u8] {
        if index < self.count { at_from(self.base, tail(self.records, 6 * index + 4)) } else { &[] }
    }
}

/// What an offset at the front of some bytes leads to, from the start of a base; none where it is 0.
fn at_from<'a>(base: &'a [u8], offset: &[u8]) -> &'a [u8] {
    match u16_at(offset, 0) {
        0 => &[],
        offset => tail(base, usize::from(offset)),
    }
}

/// The numbers of a list whose count stands before it.
fn numbers(table: &[u8], at: usize) -> impl ExactSizeIterator<Item = c_uint> {
    let list = tail(table, at + 2);
    let count = usize::from(u16_at(table, at)).min(list.len() / 2);
    (0..count).map(move |place| u16_at(list, 2 * place).into())
}

impl<'a> Table<'a> {
    fn of(face: &'a hb_face_t, tag: hb_tag_t) -> Self {
        let table = match tag {
            GSUB => face.table(b"GSUB"),
            GPOS => face.table(b"GPOS"),
            _ => &[],
        };
        Table(if u16_at(table, 0) == 1 { table } else { &[] })
    }

    fn scripts(self) -> Records<'a> {
        Records::new(at_16(self.0, 4), 0)
    }

    fn script(self, index: c_uint) -> &'a [u8] {
        self.scripts().table(index as usize)
    }

    fn languages(self, script: c_uint) -> Records<'a> {
        Records::new(self.script(script), 2)
    }

    /// A language of a script, or the script's default.
    fn language(self, script: c_uint, language: c_uint) -> &'a [u8] {
        if language == NONE { at_16(self.script(script), 0) } else { self.languages(script).table(language as usize) }
    }

    fn features(self) -> Records<'a> {
        Records::new(at_16(self.0, 6), 0)
    }

    fn feature(self, index: c_uint) -> &'a [u8] {
        self.features().table(index as usize)
    }

    fn lookups(self) -> &'a [u8] {
        at_16(self.0, 8)
    }

    fn lookup_count(self) -> c_uint {
        u16_at(self.lookups(), 0).into()
    }

    fn variations(self) -> &'a [u8] {
        if u16_at(self.0, 2) == 0 { &[] } else { at_32(self.0, 10) }
    }
}

/// The feature that a language always has.
fn required_feature(language: &[u8]) -> c_uint {
    if language.is_empty() { NONE } else { u16_at(language, 2).into() }
}

/// The other features of a language.
fn feature_indexes(language: &[u8]) -> impl ExactSizeIterator<Item = c_uint> {
    numbers(language, 4)
}

/// A correction by the device table at an offset, across or upwards.
pub fn correction(font: &hb_font_t, table: &[u8], at: usize, across: bool, store: &VariationStore<'_>) -> i32 {
    let device = at_16(table, at);
    if u16_at(device, 4) == VARIATION {
        let delta = store.delta(u32_at(device, 0), &font.coordinates());
        return if across { font.em_scalef_x(delta) } else { font.em_scalef_y(delta) };
    }
    let ((x, y), (x_ppem, y_ppem)) = (font.scale(), font.ppem());
    let (ppem, size) = if across { (x_ppem, x) } else { (y_ppem, y) };
    device_delta(table, u16_at(table, at), ppem.min(65535) as u16, size)
}

/// A table of a face that C passes.
///
/// # Safety
///
/// `face` is alive.
unsafe fn table<'a>(face: *mut hb_face_t, tag: hb_tag_t) -> Table<'a> {
    // SAFETY: the caller's word.
    Table::of(unsafe { &*face }, tag)
}

#[unsafe(no_mangle)]
pub unsafe extern "C" fn hb_ot_layout_table_get_script_tags(
    face: *mut hb_face_t,
    tag: hb_tag_t,
    start: c_uint,
    count: *mut c_uint,
    tags: *mut hb_tag_t,
) -> c_uint {
    // SAFETY: HarfBuzz's terms: a face that is alive, and room for `count` tags.
    unsafe { put_part(table(face, tag).scripts().tags(), start, count, tags) }
}

#[unsafe(no_mangle)]
pub unsafe extern "C" fn hb_ot_layout_table_find_script(
    face: *mut hb_face_t,
    tag: hb_tag_t,
    script: hb_tag_t,
    index: *mut c_uint,
) -> hb_bool_t {
    // SAFETY: HarfBuzz's terms: a face that is alive, and a place or null.
    let chosen = unsafe { table(face, tag) };
    let found = chosen.scripts().find(script);
    let near = || [b"DFLT", b"dflt", b"latn"].into_iter().find_map(|name| chosen.scripts().find(crate::types::tag(name)));
    // SAFETY: as above.
    unsafe { put(index, found.or_else(near).map_or(NONE, |found| found as c_uint)) };
    found.is_some().into()
}

/// A record that was chosen, with its tag, and whether it is one that was wanted.
struct Selected {
    record: Option<(usize, hb_tag_t)>,
    is_wanted: bool,
}

impl Selected {
    /// The first of some tags that a list has, or else one of the tags that stand for it.
    fn of(records: &Records<'_>, wanted: &[hb_tag_t], others: &[&[u8; 4]]) -> Self {
        let find = |tag: hb_tag_t| records.find(tag).map(|index| (index, tag));
        match wanted.iter().find_map(|tag| find(*tag)) {
            Some(found) => Selected { record: Some(found), is_wanted: true },
            None => Selected { record: others.iter().find_map(|name| find(tag(name))), is_wanted: false },
        }
    }

    /// # Safety
    ///
    /// The addresses are places to be written, or null.
    unsafe fn put(&self, index: *mut c_uint, chosen: *mut hb_tag_t) -> hb_bool_t {
        // SAFETY: the caller's word.
        unsafe {
            put(index, self.record.map_or(NONE, |(index, _)| index as c_uint));
            put(chosen, self.record.map_or(0, |(_, tag)| tag));
        }
        self.is_wanted.into()
    }
}

#[unsafe(no_mangle)]
pub unsafe extern "C" fn hb_ot_layout_table_select_script(
    face: *mut hb_face_t,
    tag: hb_tag_t,
    count: c_uint,
    scripts: *const hb_tag_t,
    index: *mut c_uint,
    chosen: *mut hb_tag_t,
) -> hb_bool_t {
    // SAFETY: HarfBuzz's terms: a face that is alive, so many tags, and places or null.
    unsafe {
        let wanted = slice(scripts, count as usize);
        Selected::of(&table(face, tag).scripts(), wanted, &[b"DFLT", b"dflt", b"latn"]).put(index, chosen)
    }
}

#[unsafe(no_mangle)]
pub unsafe extern "C" fn hb_ot_layout_table_choose_script(
    face: *mut hb_face_t,
    tag: hb_tag_t,
    scripts: *const hb_tag_t,
    index: *mut c_uint,
    chosen: *mut hb_tag_t,
) -> hb_bool_t {
    // SAFETY: HarfBuzz's terms: a face that is alive, tags with a 0 behind them, and places or null.
    unsafe {
        let count = (0..).take_while(|place| *scripts.add(*place) != 0).count();
        hb_ot_layout_table_select_script(face, tag, count as c_uint, scripts, index, chosen)
    }
}

#[unsafe(no_mangle)]
pub unsafe extern "C" fn hb_ot_layout_script_get_language_tags(
    face: *mut hb_face_t,
    tag: hb_tag_t,
    script: c_uint,
    start: c_uint,
    count: *mut c_uint,
    tags: *mut hb_tag_t,
) -> c_uint {
    // SAFETY: HarfBuzz's terms: a face that is alive, and room for `count` tags.
    unsafe { put_part(table(face, tag).languages(script).tags(), start, count, tags) }
}

#[unsafe(no_mangle)]
pub unsafe extern "C" fn hb_ot_layout_script_select_language2(
    face: *mut hb_face_t,
    tag: hb_tag_t,
    script: c_uint,
    count: c_uint,
    languages: *const hb_tag_t,
    index: *mut c_uint,
    chosen: *mut hb_tag_t,
) -> hb_bool_t {
    // SAFETY: HarfBuzz's terms: a face that is alive, so many tags, and places or null.
    unsafe {
        let wanted = slice(languages, count as usize);
        Selected::of(&table(face, tag).languages(script), wanted, &[b"dflt"]).put(index, chosen)
    }
}

#[unsafe(no_mangle)]
pub unsafe extern "C" fn hb_ot_layout_script_select_language(
    face: *mut hb_face_t,
    tag: hb_tag_t,
    script: c_uint,
    count: c_uint,
    languages: *const hb_tag_t,
    index: *mut c_uint,
) -> hb_bool_t {
    // SAFETY: the same terms.
    unsafe { hb_ot_layout_script_select_language2(face, tag, script, count, languages, index, std::ptr::null_mut()) }
}

#[unsafe(no_mangle)]
pub unsafe extern "C" fn hb_ot_layout_script_find_language(
    face: *mut hb_face_t,
    tag: hb_tag_t,
    script: c_uint,
    language: hb_tag_t,
    index: *mut c_uint,
) -> hb_bool_t {
    // SAFETY: the same terms, with one tag.
    unsafe { hb_ot_layout_script_select_language(face, tag, script, 1, &raw const language, index) }
}
