// Written by tools/plain_rust from crates/rb_text. Do not edit.

//! A parser of short texts, such as those of font features.

use crate::common::tag::{TAG_LEN, Tag};

/// Reads a text from its front, byte by byte or a run of bytes at a time.
///
/// It has what HarfBuzz's syntax of features needs, that of `hb_feature_from_string`. A vertical
/// tab is no space here, as in rustybuzz.
///
/// A contract sees a parser as the bytes that are left. Every method that answers `None` for a
/// byte that does not stand there leaves them as they were; those that read a run say what they
/// consume.
///
/// # Proved
///
/// ```text
/// ghost Value = { List ℕ }
/// ghost view = { λ p. p.rest.now }
/// ```
#[derive(Debug)]
pub struct TextParser<'a> {
    rest: &'a [u8],
}

impl<'a> TextParser<'a> {
    /// A parser before the first byte of a text.
    ///
    /// # Proved
    ///
    /// ```text
    /// ensures { result ≡ text.now }
    /// ```
    #[inline]
    pub fn new(text: &'a str) -> Self {
        TextParser {
            rest: text.as_bytes(),
        }
    }

    /// Whether no byte is left.
    ///
    /// # Proved
    ///
    /// ```text
    /// ensures { IsTrue result ↔ (self.now ≡ []) }
    /// ```
    #[inline]
    pub fn at_end(&self) -> bool {
        self.rest.is_empty()
    }

    /// The next byte, which stays, or `None` at the end.
    ///
    /// # Proved
    ///
    /// ```text
    /// ensures { result ≡ first_if (λ _. Bool.true) self.now }
    /// ```
    #[inline]
    pub fn curr_byte(&self) -> Option<u8> {
        self.rest.first().copied()
    }

    /// Passes over `n` bytes, which must be left.
    ///
    /// # Requires
    ///
    /// - `n ≤ length self.old`
    ///
    /// # Proved
    ///
    /// ```text
    /// ensures { self.new ≡ drop n self.old }
    /// ```
    #[inline]
    pub fn advance(&mut self, n: usize) {
        self.rest = &self.rest[n..];
    }

    /// Consumes the byte `c` where it is the next one.
    ///
    /// # Proved
    ///
    /// ```text
    /// ensures found { is_some result ≡ is_some (first_if (λ b. b == c) self.old) }
    /// ensures rest { self.new ≡ after_if (λ b. b == c) self.old }
    /// ```
    #[inline]
    pub fn consume_byte(&mut self, c: u8) -> Option<()> {
        if self.curr_byte()? != c {
            return None;
        }
        self.advance(1);
        Some(())
    }

    /// Skips ASCII spaces: space, tab, line feed, form feed and carriage return.
    ///
    /// # Proved
    ///
    /// ```text
    /// ensures { self.new ≡ skip_while is_ascii_whitespace self.old }
    /// ```
    #[inline]
    pub fn skip_spaces(&mut self) {
        self.skip_bytes(|b| b.is_ascii_whitespace());
    }

    /// Consumes a quote, `'` or `"`, where it is the next byte, and gives it.
    ///
    /// # Proved
    ///
    /// ```text
    /// ensures found { result ≡ first_if is_quote self.old }
    /// ensures rest { self.new ≡ after_if is_quote self.old }
    /// ```
    #[inline]
    pub fn consume_quote(&mut self) -> Option<u8> {
        let Some(quote @ (b'\'' | b'"')) = self.curr_byte() else {
            return None;
        };
        self.advance(1);
        Some(quote)
    }

    /// Consumes and gives the longest run of next bytes for which `f` answers true.
    ///
    /// The contract speaks of every test that `f` computes, and so says nothing of an `f` that is no
    /// function of its argument.
    ///
    /// # Requires
    ///
    /// - `F.IsAlwaysCallable f`
    ///
    /// # Proved
    ///
    /// ```text
    /// ensures part { (test : ℕ → Bool) → Computes (F.post f) test
    ///     → result.now ≡ take_while test self.old }
    /// ensures rest { (test : ℕ → Bool) → Computes (F.post f) test
    ///     → self.new ≡ skip_while test self.old }
    /// ```
    #[inline]
    pub fn consume_bytes<F: Fn(u8) -> bool>(&mut self, f: F) -> &'a [u8] {
        let rest = self.rest;
        let mut n = 0;
        while n < rest.len() && f(rest[n]) {
            n += 1;
        }
        let (front, rest) = rest.split_at(n);
        self.rest = rest;
        front
    }

    /// Skips the longest run of next bytes for which `f` answers true. As that of
    /// [`TextParser::consume_bytes`], the contract speaks of every test that `f` computes.
    ///
    /// # Requires
    ///
    /// - `F.IsAlwaysCallable f`
    ///
    /// # Proved
    ///
    /// ```text
    /// ensures { (test : ℕ → Bool) → Computes (F.post f) test
    ///     → self.new ≡ skip_while test self.old }
    /// ```
    #[inline]
    pub fn skip_bytes<F: Fn(u8) -> bool>(&mut self, f: F) {
        self.consume_bytes(f);
    }

    /// Consumes all letters, digits and `_` that come next, and gives their tag, padded with spaces. No
    /// such byte gives the null tag, and more than four give `None`.
    ///
    /// # Proved
    ///
    /// ```text
    /// ensures value { option_map (λ t. t.0) result ≡ short_tag (take_while is_word self.old) }
    /// ensures rest { self.new ≡ skip_while is_word self.old }
    /// ```
    #[inline]
    pub fn consume_tag(&mut self) -> Option<Tag> {
        let tag = self.consume_bytes(|b| b.is_ascii_alphanumeric() || b == b'_');
        if tag.len() > TAG_LEN {
            return None;
        }
        Some(Tag::from_bytes_lossy(tag))
    }

    /// Consumes a sign, if there is one, and all decimal digits after it, and gives their number. They are
    /// consumed also where they give `None`: where there is no digit, or the number does not fit.
    ///
    /// # Proved
    ///
    /// ```text
    /// ensures value { result ≡ number_in self.old }
    /// ensures rest { self.new ≡ after_number self.old }
    /// ```
    #[inline]
    pub fn consume_i32(&mut self) -> Option<i32> {
        let sign = self.curr_byte();
        if let Some(b'-' | b'+') = sign {
            self.advance(1);
        }
        let digits = self.consume_bytes(|b| b.is_ascii_digit());
        number(sign == Some(b'-'), digits)
    }

    /// Skips spaces, consumes all ASCII letters after them, and answers for `on` and `off` in any case. The
    /// spaces and letters are consumed also where they give `None`.
    ///
    /// # Proved
    ///
    /// ```text
    /// ensures value { result
    ///     ≡ toggle_of (take_while is_ascii_alphabetic (skip_while is_ascii_whitespace self.old)) }
    /// ensures rest { self.new
    ///     ≡ skip_while is_ascii_alphabetic (skip_while is_ascii_whitespace self.old) }
    /// ```
    #[inline]
    pub fn consume_bool(&mut self) -> Option<bool> {
        self.skip_spaces();
        match *self.consume_bytes(|b| b.is_ascii_alphabetic()) {
            [b'o' | b'O', b'n' | b'N'] => Some(true),
            [b'o' | b'O', b'f' | b'F', b'f' | b'F'] => Some(false),
            _ => None,
        }
    }
}

/// What decimal digits behind a minus or none stand for, where there is a digit and it fits.
///
/// # Requires
///
/// - `AllPass is_ascii_digit digits.now`
fn number(is_negative: bool, digits: &[u8]) -> Option<i32> {
    if digits.is_empty() {
        return None;
    }
    let size = i64::from(value_of(digits)?);
    i32::try_from(if is_negative { -size } else { size }).ok()
}

/// The number that decimal digits write, where it fits.
///
/// # Requires
///
/// - `AllPass is_ascii_digit digits.now`
fn value_of(digits: &[u8]) -> Option<u32> {
    let mut value: u64 = 0;
    for digit in digits {
        value = value * 10 + u64::from(*digit - b'0');
        if value > u64::from(u32::MAX) {
            return None;
        }
    }
    Some(value as u32)
}
