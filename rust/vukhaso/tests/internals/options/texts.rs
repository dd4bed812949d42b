//! Lists of characters, of features, of variations and of words. Characters and replacements are those that HarfBuzz's
//! `hb-shape` shows.

use crate::Fail;
use vukhaso::internals::options::batch::words_of_line;
use vukhaso::internals::options::code_points::{CodePointsError, code_points, text_of_code_points};
use vukhaso::internals::options::features::features;
use vukhaso::internals::options::variations::variations;
use vukhaso::memory::{TryIterator, Vec};

/// A list of characters, and its text.
static CHARACTERS: [(&str, &str); 9] = [
    ("", ""),
    ("0041", "A"),
    ("U+0041,0062", "Ab"),
    ("<U+0041|U+1F600>", "A\u{1F600}"),
    ("0x41 0X42 x43", "ABC"),
    ("\\u0041&#x42;uni0043", "ABC"),
    ("100000041", "A"),
    ("D800", "\u{FFFD}\u{FFFD}\u{FFFD}"),
    (
        "110000,200000,4000000",
        "\u{FFFD}\u{FFFD}\u{FFFD}\u{FFFD}\u{FFFD}\u{FFFD}\u{FFFD}\u{FFFD}\u{FFFD}\u{FFFD}\u{FFFD}\u{FFFD}\u{FFFD}\u{FFFD}\u{FFFD}",
    ),
];

#[test]
fn characters_are_read() -> Result<(), Fail> {
    for (list, text) in &CHARACTERS {
        let numbers = code_points(list)?;
        let read = text_of_code_points(numbers.as_slice())?;
        assert_eq!(read.as_str(), *text, "{list}");
    }
    for list in ["g", "41 zz", "0041.0042", "10000000000000000"] {
        let refused = code_points(list).err();
        assert!(refused == Some(CodePointsError::Number), "{list}");
    }
    Ok(())
}

/// A list of features, and of each its value, its start and its end.
static FEATURES: [(&str, &[(u32, u32, u32)]); 4] = [
    ("", &[]),
    ("-liga,+kern", &[(0, 0, u32::MAX), (1, 0, u32::MAX)]),
    ("liga[3:5]=0 aalt=2", &[(0, 3, 5), (2, 0, u32::MAX)]),
    ("kern,,[,dlig", &[(1, 0, u32::MAX), (1, 0, u32::MAX)]),
];

#[test]
fn features_are_read() -> Result<(), Fail> {
    for (list, wanted) in &FEATURES {
        let read = features(list)?;
        let read: Vec<(u32, u32, u32)> = read
            .as_slice()
            .iter()
            .map(|feature| (feature.value, feature.start, feature.end))
            .try_into_vec()?;
        assert!(read.as_slice() == *wanted, "{list}");
    }
    Ok(())
}

/// A line of a batch, and its words.
static WORDS: [(&str, &[&str]); 5] = [
    ("font;text", &["name", "font", "text"]),
    ("font;;;text", &["name", "font", "text"]),
    ("font;--unicodes;", &["name", "font", "--unicodes", ""]),
    ("", &["name", ""]),
    (";font", &["name", "", "font"]),
];

#[test]
fn words_are_parted() -> Result<(), Fail> {
    for (line, words) in &WORDS {
        let parted = words_of_line("name", line)?;
        assert!(parted.as_slice() == *words, "{line}");
    }
    Ok(())
}

/// A list of variations, and the tag and the value of each, as HarfBuzz's `hb_variation_from_string` reads them.
static VARIATIONS: [(&str, &[(&[u8; 4], f32)]); 9] = [
    ("", &[]),
    ("wght=500", &[(b"wght", 500.0)]),
    (
        "wght=500,slnt=-7.5 wdth=1e2",
        &[(b"wght", 500.0), (b"slnt", -7.5), (b"wdth", 100.0)],
    ),
    ("wght500", &[]),
    ("x=+.5", &[(b"x   ", 0.5)]),
    ("wght=,=3,weight=4,wght=1x", &[]),
    ("wghts=4", &[]),
    ("wght=inf,wght=nan", &[]),
    ("a_1=2,,a-1,a-1=2", &[(b"a_1 ", 2.0), (b"a   ", -1.0)]),
];

#[test]
fn variations_are_read() -> Result<(), Fail> {
    for (list, wanted) in &VARIATIONS {
        let read = variations(list)?;
        let read: Vec<([u8; 4], f32)> = read
            .as_slice()
            .iter()
            .map(|variation| (variation.tag.to_bytes(), variation.value))
            .try_into_vec()?;
        let wanted: Vec<([u8; 4], f32)> = wanted
            .iter()
            .map(|(tag, value)| (**tag, *value))
            .try_into_vec()?;
        assert!(read.as_slice() == wanted.as_slice(), "{list}");
    }
    Ok(())
}
