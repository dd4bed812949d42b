//! OpenType's tags of scripts and languages.

use crate::common::languages::{hb_language_t, language_of, private_tag, shaper_language, text_of};
use crate::ot::chosen_languages::CHOSEN_LANGUAGES;
use crate::types::{hb_script_t, hb_tag_t, put, put_part, tag};
use std::collections::HashMap;
use std::ffi::c_uint;
use std::ptr::null;
use std::sync::OnceLock;
use vukhaso::internals::ot_tags::LanguageTags;
use vukhaso::internals::text::{LanguageTable, tags::tags_from_script_and_language};
use vukhaso::{Language, Script, Tag};

const DEFAULT_SCRIPT: hb_tag_t = tag(b"DFLT");
const DEFAULT_LANGUAGE: hb_tag_t = tag(b"dflt");

/// The tags of a script and a language.
fn tags_of(script: hb_script_t, language: Option<&Language>) -> (Vec<hb_tag_t>, Vec<hb_tag_t>) {
    let Some(table) = LanguageTable::new(&[]) else {
        return (Vec::new(), Vec::new());
    };
    let script = Script::from_iso15924_tag(Tag(script));
    let (scripts, languages) = tags_from_script_and_language(script, language, &table, &LanguageTags::of(language));
    // The shaper has no tag of its own for the script of mathematics.
    let number = |found: &Tag| if found.to_bytes() == *b"zmth" { tag(b"math") } else { found.as_u32() };
    let numbers = |tags: &[Tag]| tags.iter().map(number).collect();
    (numbers(scripts.as_slice()), numbers(languages.as_slice()))
}

/// The tags of a script and a language of C, in which a tag for private use may have any bytes.
fn tags_of_language(script: hb_script_t, language: hb_language_t) -> (Vec<hb_tag_t>, Vec<hb_tag_t>) {
    let (mut scripts, mut languages) = tags_of(script, shaper_language(language).as_ref());
    let text = std::str::from_utf8(text_of(language)).unwrap_or_default();
    for (tags, mark) in [(&mut scripts, "-hbsc-"), (&mut languages, "-hbot-")] {
        if let Some((_, tag)) = private_tag(text, mark) {
            // The default's tag is in capitals for scripts, and else small.
            let is_default = tag & 0xDFDF_DFDF == DEFAULT_SCRIPT;
            *tags = vec![if is_default { tag ^ 0x2020_2020 } else { tag }];
        }
    }
    (scripts, languages)
}

/// The last tags of a script and a language, or those of the defaults: what the table `BASE` is asked by.
pub fn last_tags(script: hb_script_t, language: hb_language_t) -> (hb_tag_t, hb_tag_t) {
    let (scripts, languages) = tags_of_language(script, language);
    (scripts.last().copied().unwrap_or(DEFAULT_SCRIPT), languages.last().copied().unwrap_or(DEFAULT_LANGUAGE))
}

#[unsafe(no_mangle)]
pub unsafe extern "C" fn hb_ot_tags_from_script_and_language(
    script: hb_script_t,
    language: hb_language_t,
    script_count: *mut c_uint,
    scripts: *mut hb_tag_t,
    language_count: *mut c_uint,
    languages: *mut hb_tag_t,
) {
    let (found_scripts, found_languages) = tags_of_language(script, language);
    // SAFETY: HarfBuzz's terms: lists with so much room, or null.
    unsafe {
        put_part(found_scripts.into_iter(), 0, script_count, scripts);
        put_part(found_languages.into_iter(), 0, language_count, languages);
    }
}

#[unsafe(no_mangle)]
pub unsafe extern "C" fn hb_ot_tags_from_script(script: hb_script_t, first: *mut hb_tag_t, second: *mut hb_tag_t) {
    let (found, _) = tags_of(script, None);
    // SAFETY: HarfBuzz's terms: two places.
    unsafe {
        put(first, found.first().copied().unwrap_or(DEFAULT_SCRIPT));
        put(second, found.get(1).copied().unwrap_or(DEFAULT_SCRIPT));
    }
}

#[unsafe(no_mangle)]
pub extern "C" fn hb_ot_tag_from_language(language: hb_language_t) -> hb_tag_t {
    let (_, found) = tags_of_language(0, language);
    found.first().copied().unwrap_or(DEFAULT_LANGUAGE)
}

/// The scripts that have a tag of their own for newer shapers.
const NEW_SCRIPTS: [(&[u8; 4], &[u8; 4]); 10] = [
    (b"bng2", b"Beng"),
    (b"dev2", b"Deva"),
    (b"gjr2", b"Gujr"),
    (b"gur2", b"Guru"),
    (b"knd2", b"Knda"),
    (b"mlm2", b"Mlym"),
    (b"ory2", b"Orya"),
    (b"tml2", b"Taml"),
    (b"tel2", b"Telu"),
    (b"mym2", b"Mymr"),
];

#[unsafe(no_mangle)]
pub extern "C" fn hb_ot_tag_to_script(tag: hb_tag_t) -> hb_script_t {
    let mut bytes = tag.to_be_bytes();
    if matches!(bytes[3], b'2' | b'3') {
        bytes[3] = b'2';
        let found = NEW_SCRIPTS.iter().find(|(new, _)| **new == bytes);
        return found.map_or(crate::common::scripts::UNKNOWN, |(_, script)| hb_tag_t::from_be_bytes(**script));
    }
    match &bytes {
        b"DFLT" => 0,
        b"math" => hb_tag_t::from_be_bytes(*b"Zmth"),
        _ => {
            // Spaces behind a short tag stand for its last letter: `nko ` is `Nkoo`.
            for place in 2..4 {
                if bytes[place] == b' ' {
                    bytes[place] |= bytes[place - 1];
                }
            }
            bytes[0] &= !0x20;
            hb_tag_t::from_be_bytes(bytes)
        }
    }
}

/// The first language of each registered tag: those of two letters before those of three, each in the order of the alphabet.
fn languages_of_tags() -> &'static HashMap<hb_tag_t, hb_language_t> {
    struct Found(HashMap<hb_tag_t, hb_language_t>);
    // SAFETY: languages are addresses of texts that are never freed nor changed.
    unsafe impl Send for Found {}
    // SAFETY: as above.
    unsafe impl Sync for Found {}
    static FOUND: OnceLock<Found> = OnceLock::new();
    let found = FOUND.get_or_init(|| {
        let mut found = HashMap::new();
        let mut add = |code: &[u8], name: &[u8]| {
            let text = std::str::from_utf8(name).unwrap_or_default();
            for tag in tags_of(0, Language::from_str(text).ok().as_ref()).1 {
                found.entry(tag).or_insert_with(|| language_of(code));
            }
        };
        let letters = || b'a'..=b'z';
        letters().for_each(|a| letters().for_each(|b| add(&[a, b], &[a, b])));
        // Behind a code that has no tags, a code has those that are registered, and not itself.
        let codes = letters().flat_map(|a| letters().flat_map(move |b| letters().map(move |c| [a, b, c])));
        codes.for_each(|code| add(&code, &[b"qq-", &code[..]].concat()));
        Found(found)
    });
    &found.0
}

#[unsafe(no_mangle)]
pub extern "C" fn hb_ot_tag_to_language(tag: hb_tag_t) -> hb_language_t {
    if tag == DEFAULT_LANGUAGE {
        return null();
    }
    let bytes = tag.to_be_bytes();
    if let Ok(place) = CHOSEN_LANGUAGES.binary_search_by(|(chosen, _)| chosen.as_bytes().cmp(&bytes)) {
        return language_of(CHOSEN_LANGUAGES[place].1.as_bytes());
    }
    if let Some(&language) = languages_of_tags().get(&tag) {
        return language;
    }
    let is_code = bytes[..3].iter().all(u8::is_ascii_alphabetic) && bytes[3] == b' ';
    let code = if is_code { format!("{}-", String::from_utf8_lossy(&bytes[..3]).to_lowercase()) } else { String::new() };
    language_of(format!("{code}x-hbot-{tag:08x}").as_bytes())
}

#[unsafe(no_mangle)]
pub unsafe extern "C" fn hb_ot_tags_to_script_and_language(
    script_tag: hb_tag_t,
    language_tag: hb_tag_t,
    script: *mut hb_script_t,
    language: *mut hb_language_t,
) {
    let found = hb_ot_tag_to_script(script_tag);
    // SAFETY: HarfBuzz's terms: places or null.
    unsafe { put(script, found) };
    if language.is_null() {
        return;
    }
    let mut answer = hb_ot_tag_to_language(language_tag);
    if tags_of(found, None).0.first() != Some(&script_tag) {
        let mut text = text_of(answer).to_vec();
        if !text.starts_with(b"x-") {
            text.extend(b"-x");
        }
        text.extend(format!("-hbsc-{script_tag:08x}").into_bytes());
        answer = language_of(&text);
    }
    // SAFETY: as above.
    unsafe { put(language, answer) };
}
