//! Languages: each is kept once, so that two are the same where their addresses are.

use crate::types::{bytes, hb_bool_t};
use std::collections::BTreeMap;
use std::ffi::{CStr, CString, c_char, c_int};
use std::ptr::null;
use std::sync::{Mutex, OnceLock, PoisonError};

/// The address of a language's text, which is never freed.
pub type hb_language_t = *const c_char;

/// The longest text that is cut out of a longer one.
const LONGEST: usize = 63;

/// The languages that were asked for.
static LANGUAGES: Mutex<BTreeMap<Vec<u8>, &'static CStr>> = Mutex::new(BTreeMap::new());

/// A byte of a language's text; `None` where the text ends.
fn canonical(byte: u8) -> Option<u8> {
    match byte {
        b'0'..=b'9' | b'-' => Some(byte),
        b'a'..=b'z' | b'A'..=b'Z' => Some(byte.to_ascii_lowercase()),
        b'_' => Some(b'-'),
        _ => None,
    }
}

/// The language of a text.
pub fn language_of(text: &[u8]) -> hb_language_t {
    if matches!(text, [] | [0, ..]) {
        return null();
    }
    let name: Vec<u8> = text.iter().map_while(|byte| canonical(*byte)).collect();
    let mut languages = LANGUAGES.lock().unwrap_or_else(PoisonError::into_inner);
    let known = languages.entry(name).or_insert_with_key(|name| {
        let text = CString::new(name.clone()).unwrap_or_default();
        Box::leak(text.into_boxed_c_str())
    });
    known.as_ptr()
}

/// The bytes of a language's text; none where it is null.
pub fn text_of<'a>(language: hb_language_t) -> &'a [u8] {
    if language.is_null() {
        return &[];
    }
    // SAFETY: HarfBuzz's terms: a language of `hb_language_from_string`, which is never freed.
    unsafe { CStr::from_ptr(language) }.to_bytes()
}

/// The language as the shaper takes it.
pub fn shaper_language(language: hb_language_t) -> Option<vukhaso::Language> {
    let text = std::str::from_utf8(text_of(language)).ok()?;
    let text = ["-hbot-", "-hbsc-"].iter().fold(text.to_owned(), with_letters);
    vukhaso::Language::from_str(&text).ok()
}

/// The tag for private use that a language says in hexadecimal digits, and where it stands: 0x41424344 at 1 of `x-hbot-41424344`.
pub fn private_tag(text: &str, mark: &str) -> Option<(usize, u32)> {
    let start = if text.starts_with("x-") { 0 } else { text.find("-x-")? };
    let place = start + text[start..].find(mark.strip_suffix('-')?)?;
    let digits = text[place..].strip_prefix(mark)?.get(..8)?;
    let is_hexadecimal = digits.bytes().all(|digit| digit.is_ascii_hexdigit());
    is_hexadecimal.then(|| u32::from_str_radix(digits, 16).ok().map(|tag| (place, tag)))?
}

/// A language whose tag for private use has letters in the place of hexadecimal digits, as the shaper reads it: `x-hbotabcd` for
/// `x-hbot-41424344`. A tag that letters do not say stays as it is.
fn with_letters(text: String, mark: &&str) -> String {
    let Some((place, tag)) = private_tag(&text, mark) else {
        return text;
    };
    let letters = String::from_utf8(tag.to_be_bytes().trim_ascii_end().to_vec()).unwrap_or_default();
    let is_said = |letter: char| if *mark == "-hbot-" { !letter.is_ascii_lowercase() } else { !letter.is_ascii_uppercase() };
    if letters.is_empty() || !letters.chars().all(|letter| letter.is_ascii_alphanumeric() && is_said(letter)) {
        return text;
    }
    let (front, behind) = (&text[..place + mark.len() - 1], &text[place + mark.len() + 8..]);
    format!("{front}{}{behind}", letters.to_ascii_lowercase())
}

#[unsafe(no_mangle)]
pub unsafe extern "C" fn hb_language_from_string(text: *const c_char, length: c_int) -> hb_language_t {
    // SAFETY: HarfBuzz's terms: a text of this length, or with a zero behind it.
    let text = unsafe { bytes(text, length) };
    let text = if length < 0 { text } else { &text[..text.len().min(LONGEST)] };
    language_of(text)
}

#[unsafe(no_mangle)]
pub extern "C" fn hb_language_to_string(language: hb_language_t) -> *const c_char {
    language
}

unsafe extern "C" {
    fn setlocale(category: c_int, locale: *const c_char) -> *const c_char;
}

/// `LC_CTYPE` of the C library of Linux.
const CHARACTERS: c_int = 0;

/// A language that was found once.
struct Default(hb_language_t);

// SAFETY: the address of a text that is never freed nor changed.
unsafe impl Send for Default {}
// SAFETY: as above.
unsafe impl Sync for Default {}

#[unsafe(no_mangle)]
pub extern "C" fn hb_language_get_default() -> hb_language_t {
    static DEFAULT: OnceLock<Default> = OnceLock::new();
    let found = DEFAULT.get_or_init(|| {
        // SAFETY: asks for the locale, and changes nothing; the text stays until the locale is set.
        let locale = unsafe { setlocale(CHARACTERS, null()) };
        Default(language_of(text_of(locale)))
    });
    found.0
}

#[unsafe(no_mangle)]
pub extern "C" fn hb_language_matches(language: hb_language_t, specific: hb_language_t) -> hb_bool_t {
    if language == specific {
        return 1;
    }
    if language.is_null() || specific.is_null() {
        return 0;
    }
    let rest = text_of(specific).strip_prefix(text_of(language));
    matches!(rest, Some([] | [b'-', ..])).into()
}
