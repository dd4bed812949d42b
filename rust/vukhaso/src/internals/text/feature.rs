// Written by tools/plain_rust from crates/rb_text. Do not edit.

//! Font features for ranges of a text, and the syntax in which HarfBuzz writes them.

use crate::common::tag::Tag;
use crate::numbers::ToUnsigned;
use crate::text::text_parser::TextParser;
use core::ops::Bound;
use core::str::FromStr;

/// The `start` of a feature that reaches the whole text, as in HarfBuzz's `hb_feature_t`.
pub const HB_FEATURE_GLOBAL_START: u32 = 0;

/// The `end` of a feature that reaches the whole text, as in HarfBuzz's `hb_feature_t`.
pub const HB_FEATURE_GLOBAL_END: u32 = u32::MAX;

/// A font feature with its value, for a range of a text.
///
/// Features are listed in the OpenType tag registry. A value of 0 is off and 1 is on; a feature that
/// chooses among alternates takes the number of the choice. The range is counted in cluster
/// numbers, and an end of [`HB_FEATURE_GLOBAL_END`] stands for the end of the text.
#[derive(Clone, Copy, PartialEq, Eq, Hash, Debug)]
pub struct Feature {
    /// The feature's tag.
    pub tag: Tag,
    /// What the feature is set to: 0 is off.
    pub value: u32,
    /// The first cluster that the feature reaches.
    pub start: u32,
    /// The cluster before which the feature ends.
    pub end: u32,
}

impl Feature {
    /// A feature over the clusters between two bounds: the fields of HarfBuzz's `hb_feature_t`, with the
    /// bounds read as rustybuzz reads them.
    ///
    /// An included bound is `start` or `end` as it stands. An excluded `start` gives the number after it,
    /// and an excluded `end` the number before it, or 0. No bound gives 0 and [`HB_FEATURE_GLOBAL_END`].
    /// Numbers past `u32::MAX` give `u32::MAX`.
    ///
    /// # Proved
    ///
    /// ```text
    /// ensures { result
    ///     ≡ record { tag = tag; value = value; start = start_of start; end = end_of end } }
    /// ```
    #[inline]
    pub fn new(tag: Tag, value: u32, start: Bound<usize>, end: Bound<usize>) -> Self {
        let max = u32::MAX as usize;
        let start = match start {
            Bound::Included(n) => n.min(max) as u32,
            Bound::Excluded(n) => n.saturating_add(1).min(max) as u32,
            Bound::Unbounded => HB_FEATURE_GLOBAL_START,
        };
        let end = match end {
            Bound::Included(n) => n.min(max) as u32,
            Bound::Excluded(n) => n.saturating_sub(1).min(max) as u32,
            Bound::Unbounded => HB_FEATURE_GLOBAL_END,
        };
        Feature {
            tag,
            value,
            start,
            end,
        }
    }

    /// Whether the feature reaches the whole text.
    ///
    /// # Proved
    ///
    /// ```text
    /// ensures { IsTrue result
    ///     ↔ ((self.now.start ≡ 0) × (self.now.end ≡ last_end)) }
    /// ```
    #[inline]
    pub fn is_global(&self) -> bool {
        self.start == HB_FEATURE_GLOBAL_START && self.end == HB_FEATURE_GLOBAL_END
    }
}

///
/// # Proved
///
/// ```text
/// ghost from_str_gives = { λ text r. ((f : TheFeature) → (r ≡ Ok f) ↔ ReadsAs text f)
///     × IfErr r (λ e. e.now ≡ codes "invalid feature") }
/// ```
impl FromStr for Feature {
    type Err = &'static str;

    /// In order: `-` (value 0), `+` or nothing (value 1); spaces; a tag of up to four letters, digits and
    /// `_`, which may stand between two equal quotes; spaces; a range in brackets or nothing; `=` or
    /// nothing; a value or nothing; spaces. A value is a number, or spaces and then `on` or `off` in any
    /// case; behind `=` one of them must stand. Where neither stands, the prefix's value holds and other
    /// letters may stand there. Spaces stand nowhere else: none between `]` and `=`, and none between
    /// either of them and a number. As in rustybuzz, no tag at all is the null tag, and a vertical tab is
    /// no space.
    ///
    /// | Text | Value | Start | End |
    /// |---|---|---|---|
    /// | `kern`, `+kern`, `kern=on` | 1 | 0 | `u32::MAX` |
    /// | `-kern`, `kern=0`, `kern off` | 0 | 0 | `u32::MAX` |
    /// | `aalt=2` | 2 | 0 | `u32::MAX` |
    /// | `kern[]`, `kern[:]` | 1 | 0 | `u32::MAX` |
    /// | `kern[5:]`, `kern[5;]` | 1 | 5 | `u32::MAX` |
    /// | `kern[:5]` | 1 | 0 | 5 |
    /// | `kern[3:5]` | 1 | 3 | 5 |
    /// | `kern[3]` | 1 | 3 | 4 |
    /// | `aalt[3:5]=2` | 2 | 3 | 5 |
    ///
    /// Numbers are those of [`TextParser::consume_i32`], and count modulo 2^32.
    ///
    /// # Errors
    ///
    /// The feature that a text reads as in HarfBuzz's syntax of features; any text that reads as none, the
    /// empty one among them, is refused with `invalid feature`.
    fn from_str(text: &str) -> Result<Feature, &'static str> {
        parse(text).ok_or("invalid feature")
    }
}

/// The whole text, read from the left.
fn parse(text: &str) -> Option<Feature> {
    if text.is_empty() {
        return None;
    }
    let mut parser = TextParser::new(text);
    let prefix = prefix(&mut parser);
    let tag = tag(&mut parser)?;
    parser.skip_spaces();
    let (start, end) = range(&mut parser)?;
    let value = setting(&mut parser, prefix)?;
    parser.skip_spaces();
    if !parser.at_end() {
        return None;
    }
    Some(Feature {
        tag,
        value,
        start,
        end,
    })
}

/// The value that a sign, or none, in front of the tag gives.
fn prefix(parser: &mut TextParser<'_>) -> u32 {
    if parser.consume_byte(b'-').is_some() {
        return 0;
    }
    parser.consume_byte(b'+');
    1
}

/// The tag, with the quotes and the spaces before them.
fn tag(parser: &mut TextParser<'_>) -> Option<Tag> {
    parser.skip_spaces();
    let Some(quote) = parser.consume_quote() else {
        return parser.consume_tag();
    };
    let quoted = parser.consume_tag()?;
    parser.consume_byte(quote)?;
    Some(quoted)
}

/// The start and the end of the range in brackets, or of the whole text where no `[` stands.
fn range(parser: &mut TextParser<'_>) -> Option<(u32, u32)> {
    if parser.consume_byte(b'[').is_none() {
        return Some((HB_FEATURE_GLOBAL_START, HB_FEATURE_GLOBAL_END));
    }
    let first = parser.consume_i32();
    let start = first.map_or(0, |n| n.to_unsigned());
    let end = if let Some(b':' | b';') = parser.curr_byte() {
        parser.advance(1);
        parser.consume_i32().map_or(u32::MAX, |n| n.to_unsigned())
    } else if first.is_some() && start != u32::MAX {
        start + 1
    } else {
        u32::MAX
    };
    parser.consume_byte(b']')?;
    Some((start, end))
}

/// The value behind the range, or that of the prefix.
fn setting(parser: &mut TextParser<'_>, prefix: u32) -> Option<u32> {
    let has_equals = parser.consume_byte(b'=').is_some();
    if let Some(value) = parser.consume_i32() {
        return Some(value.to_unsigned());
    }
    match parser.consume_bool() {
        Some(value) => Some(u32::from(value)),
        None if has_equals => None,
        None => Some(prefix),
    }
}
