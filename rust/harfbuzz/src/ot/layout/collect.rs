//! The features and lookups of several scripts and languages at once.

use crate::face::hb_face_t;
use crate::map::hb_map_t;
use crate::ot::layout::{NONE, Table, feature_indexes, numbers, required_feature, table};
use crate::set::hb_set_t;
use crate::sfnt::{at_32, tail, u16_at, u32_at};
use crate::types::{hb_tag_t, slice};
use std::ffi::c_uint;

/// The tags of a list that ends in 0; `None` where there is no list, which stands for all.
unsafe fn listed<'a>(tags: *const hb_tag_t) -> Option<&'a [hb_tag_t]> {
    if tags.is_null() {
        return None;
    }
    // SAFETY: HarfBuzz's terms: tags with a 0 behind them.
    unsafe {
        let count = (0..).take_while(|place| *tags.add(*place) != 0).count();
        Some(slice(tags, count))
    }
}

/// The languages of a script that are wanted: all of them with the default, or those of a list and the default as `dflt`.
fn languages<'a>(table: Table<'a>, script: c_uint, wanted: Option<&[hb_tag_t]>) -> Vec<&'a [u8]> {
    let records = table.languages(script);
    match wanted {
        None => {
            let all = (0..records.count).map(|index| records.table(index));
            std::iter::once(table.language(script, NONE)).chain(all).collect()
        }
        Some(wanted) => wanted.iter().filter_map(|tag| records.find(*tag)).map(|index| records.table(index)).collect(),
    }
}

/// The indexes of the features of some scripts and languages.
fn features(
    table: Table<'_>,
    scripts: Option<&[hb_tag_t]>,
    wanted_languages: Option<&[hb_tag_t]>,
    wanted: Option<&[hb_tag_t]>,
) -> Vec<c_uint> {
    let records = table.scripts();
    let indexes: Vec<usize> = match scripts {
        None => (0..records.count).collect(),
        Some(scripts) => scripts.iter().filter_map(|script| records.find(*script)).collect(),
    };
    let is_wanted = |index: &c_uint| {
        let tag = table.features().tag(*index as usize);
        wanted.is_none_or(|wanted| tag.is_some_and(|tag| wanted.contains(&tag)))
    };
    let mut found = Vec::new();
    for script in indexes {
        for language in languages(table, script as c_uint, wanted_languages) {
            let required = Some(required_feature(language)).filter(|index| *index != NONE);
            found.extend(required.into_iter().chain(feature_indexes(language)).filter(is_wanted));
        }
    }
    found.sort_unstable();
    found.dedup();
    found
}

#[unsafe(no_mangle)]
pub unsafe extern "C" fn hb_ot_layout_collect_features(
    face: *mut hb_face_t,
    tag: hb_tag_t,
    scripts: *const hb_tag_t,
    languages: *const hb_tag_t,
    wanted: *const hb_tag_t,
    set: *mut hb_set_t,
) {
    // SAFETY: HarfBuzz's terms: a face and a set that are alive, and lists of tags that end in 0, or null.
    unsafe {
        let found = features(table(face, tag), listed(scripts), listed(languages), listed(wanted));
        found.into_iter().for_each(|index| (*set).add(index));
    }
}

#[unsafe(no_mangle)]
pub unsafe extern "C" fn hb_ot_layout_collect_features_map(
    face: *mut hb_face_t,
    tag: hb_tag_t,
    script: c_uint,
    language: c_uint,
    map: *mut hb_map_t,
) {
    // SAFETY: HarfBuzz's terms: a face and a map that are alive.
    unsafe {
        let table = table(face, tag);
        for index in feature_indexes(table.language(script, language)) {
            if let Some(tag) = table.features().tag(index as usize) {
                (*map).set(tag, index);
            }
        }
    }
}

/// The lookups that features have somewhere in the space of variations.
fn varied_lookups(table: Table<'_>, features: &[c_uint], mut tell: impl FnMut(c_uint)) {
    let variations = table.variations();
    for row in tail(variations, 8).chunks_exact(8).take(u32_at(variations, 4) as usize).enumerate() {
        let substitutions = at_32(variations, 12 + 8 * row.0);
        let records = tail(substitutions, 6).chunks_exact(6).take(usize::from(u16_at(substitutions, 4)));
        for (place, record) in records.enumerate() {
            if features.contains(&c_uint::from(u16_at(record, 0))) {
                numbers(at_32(substitutions, 8 + 6 * place), 2).for_each(&mut tell);
            }
        }
    }
}

#[unsafe(no_mangle)]
pub unsafe extern "C" fn hb_ot_layout_collect_lookups(
    face: *mut hb_face_t,
    tag: hb_tag_t,
    scripts: *const hb_tag_t,
    languages: *const hb_tag_t,
    wanted: *const hb_tag_t,
    set: *mut hb_set_t,
) {
    // SAFETY: HarfBuzz's terms: a face and a set that are alive, and lists of tags that end in 0, or null.
    unsafe {
        let table = table(face, tag);
        let found = features(table, listed(scripts), listed(languages), listed(wanted));
        for index in &found {
            numbers(table.feature(*index), 2).for_each(|lookup| (*set).add(lookup));
        }
        varied_lookups(table, &found, |lookup| (*set).add(lookup));
    }
}
