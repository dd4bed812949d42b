// Written by tools/plain_rust from crates/shaping_bench. Do not edit.

//! Texts that are pushed, and texts of features that are read.

use crate::anyhow::bail;
use crate::shaping_bench::measuring::Item;
use std::str::FromStr;
use vukhaso::internals::buffer::UnicodeBuffer;
use vukhaso::internals::text::Feature;
use vukhaso::memory::{AllocError, String};

/// Latin, Greek, Hebrew, Arabic, Devanagari, Hangul, Han, emoji, spaces and digits.
const MIXED: &str = "The quick fox, Ζεύς שלום עולם مرحبا 12 नमस्ते 한국어 漢字かな 😀é\u{301}fi.";

/// Texts of features in all their forms.
pub const FEATURES: [&str; 10] = [
    "kern",
    "+liga",
    "-calt",
    "kern=0",
    "aalt=2",
    "smcp[3:5]",
    "ss01[10:200]=1",
    "'frac' on",
    "kern[:5]=off",
    "dlig [1;4] ",
];

/// The first characters of `MIXED`, as often as it takes.
///
/// # Errors
///
/// `Err(AllocError)` where memory ran out.
///
/// # Proved
///
/// That it returns.
#[inline]
pub fn mixed_text(size: usize) -> Result<String, AllocError> {
    let count = MIXED.chars().count().max(1);
    let mut text = String::new();
    for _ in 0..size / count {
        text.push_str(MIXED)?;
    }
    push_first(&mut text, size % count)?;
    Ok(text)
}

fn push_first(text: &mut String, count: usize) -> Result<(), AllocError> {
    for c in MIXED.chars().take(count) {
        text.push(c)?;
    }
    Ok(())
}

/// A text that is pushed into a new buffer. The buffer is freed before the next run, and this is not timed.
#[derive(Debug)]
pub struct NewTextItem<'a> {
    text: &'a str,
    buffer: Option<UnicodeBuffer>,
}

impl<'a> NewTextItem<'a> {
    /// # Proved
    ///
    /// That it returns.
    #[inline]
    pub fn new(text: &'a str) -> Self {
        NewTextItem { text, buffer: None }
    }
}

impl<'a> Item for NewTextItem<'a> {
    fn prepare(&mut self) -> crate::anyhow::Result<()> {
        self.buffer = None;
        Ok(())
    }

    fn run(&mut self) -> crate::anyhow::Result<u32> {
        let mut buffer = UnicodeBuffer::new();
        let seen = push(&mut buffer, self.text)?;
        self.buffer = Some(buffer);
        Ok(seen)
    }
}

/// A text that is pushed into a buffer that had it before.
#[derive(Debug)]
pub struct ReusedTextItem<'a> {
    text: &'a str,
    buffer: UnicodeBuffer,
}

impl<'a> ReusedTextItem<'a> {
    /// # Proved
    ///
    /// That it returns.
    #[inline]
    pub fn new(text: &'a str) -> Self {
        ReusedTextItem {
            text,
            buffer: UnicodeBuffer::new(),
        }
    }
}

impl<'a> Item for ReusedTextItem<'a> {
    fn prepare(&mut self) -> crate::anyhow::Result<()> {
        Ok(())
    }

    fn run(&mut self) -> crate::anyhow::Result<u32> {
        self.buffer.clear();
        push(&mut self.buffer, self.text)
    }
}

/// Pushes a text, and says how long the buffer then is.
fn push(buffer: &mut UnicodeBuffer, text: &str) -> crate::anyhow::Result<u32> {
    if !buffer.push_str(text)? {
        bail!("a text was refused");
    }
    Ok(u32::try_from(buffer.len()).unwrap_or(u32::MAX))
}

/// Texts of features, of which some are read.
#[derive(Debug)]
pub struct FeaturesItem<'a> {
    texts: &'a [&'a str],
    size: usize,
}

impl<'a> FeaturesItem<'a> {
    /// # Proved
    ///
    /// That it returns.
    #[inline]
    pub fn new(texts: &'a [&'a str], size: usize) -> Self {
        FeaturesItem { texts, size }
    }
}

impl<'a> Item for FeaturesItem<'a> {
    fn prepare(&mut self) -> crate::anyhow::Result<()> {
        Ok(())
    }

    fn run(&mut self) -> crate::anyhow::Result<u32> {
        Ok(read_features(self.texts, self.size))
    }
}

/// Reads each text in turn.
fn read_features(texts: &[&str], size: usize) -> u32 {
    let count = texts.len().max(1);
    let mut seen = 0u32;
    for i in 0..size {
        if let Some(text) = texts.get(i % count) {
            if let Ok(feature) = Feature::from_str(text) {
                seen =
                    seen.wrapping_add(feature.tag.0 ^ feature.value ^ feature.start ^ feature.end);
            }
        }
    }
    seen
}
