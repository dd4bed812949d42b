//! Languages, features and variations.

use core::ops::{Bound, RangeBounds};
use core::str::FromStr;
use ttf_parser::Tag;

/// The language of a text, a tag of BCP 47.
#[derive(Clone, PartialEq, Eq, Hash, Debug)]
pub struct Language(pub(crate) vukhaso::Language);

impl Language {
    /// The tag, in small letters.
    pub fn as_str(&self) -> &str {
        self.0.as_str()
    }
}

impl FromStr for Language {
    type Err = &'static str;

    fn from_str(text: &str) -> Result<Self, &'static str> {
        match vukhaso::Language::from_str(text) {
            Ok(language) => Ok(Language(language)),
            Err(vukhaso::LanguageError::Memory) => panic!("out of memory"),
            Err(_) => Err("invalid language"),
        }
    }
}

/// A feature of a font that is turned on or off in a range of clusters.
#[repr(C)]
#[derive(Clone, Copy, PartialEq, Hash, Debug)]
pub struct Feature {
    /// Its tag.
    pub tag: Tag,
    /// Its value: 0 turns it off.
    pub value: u32,
    /// The first cluster of the range.
    pub start: u32,
    /// The cluster behind the range.
    pub end: u32,
}

impl Feature {
    /// A feature with a value, in a range of clusters.
    pub fn new(tag: Tag, value: u32, range: impl RangeBounds<usize>) -> Feature {
        let place = |bound: Bound<&usize>| bound.cloned();
        let (start, end) = (place(range.start_bound()), place(range.end_bound()));
        vukhaso::Feature::new(vukhaso::Tag(tag.0), value, start, end).into()
    }
}

impl From<vukhaso::Feature> for Feature {
    fn from(feature: vukhaso::Feature) -> Self {
        Feature {
            tag: Tag(feature.tag.0),
            value: feature.value,
            start: feature.start,
            end: feature.end,
        }
    }
}

impl From<Feature> for vukhaso::Feature {
    fn from(feature: Feature) -> Self {
        vukhaso::Feature {
            tag: vukhaso::Tag(feature.tag.0),
            value: feature.value,
            start: feature.start,
            end: feature.end,
        }
    }
}

impl FromStr for Feature {
    type Err = &'static str;

    fn from_str(text: &str) -> Result<Self, &'static str> {
        text.parse::<vukhaso::Feature>()
            .map(Feature::from)
            .map_err(|_| "invalid feature")
    }
}

/// The value of an axis of a variable font.
#[repr(C)]
#[derive(Clone, Copy, PartialEq, Debug)]
pub struct Variation {
    /// The tag of the axis.
    pub tag: Tag,
    /// The value.
    pub value: f32,
}

impl FromStr for Variation {
    type Err = &'static str;

    /// A tag, in quotes or not, an equals sign or none, and a number, as `wght=700`.
    fn from_str(text: &str) -> Result<Self, &'static str> {
        variation(text).ok_or("invalid variation")
    }
}

fn variation(text: &str) -> Option<Variation> {
    let text = text.trim_matches(|c: char| c.is_ascii_whitespace());
    let quote = text.chars().next().filter(|c| matches!(c, '\'' | '"'));
    let text = text.strip_prefix(['\'', '"']).unwrap_or(text);
    let is_letter = |c: char| c.is_ascii_alphanumeric() || c == '_';
    let (tag, rest) = text.split_at(text.find(|c| !is_letter(c)).unwrap_or(text.len()));
    let rest = match quote {
        Some(quote) => rest.strip_prefix(quote)?,
        None => rest,
    };
    let number = rest.strip_prefix('=').unwrap_or(rest);
    let is_number = |c: char| c.is_ascii_digit() || matches!(c, '+' | '-' | '.');
    if tag.len() > 4 || !number.chars().all(is_number) {
        return None;
    }
    Some(Variation {
        tag: Tag::from_bytes_lossy(tag.as_bytes()),
        value: number.parse().ok()?,
    })
}
