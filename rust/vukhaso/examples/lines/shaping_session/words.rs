// Written by tools/plain_rust from crates/shaping_session. Do not edit.

//! The words of a line.

use vukhaso::internals::common::Script;

/// A line that is taken word by word from its front. Words are not empty, and one space parts them.
/// A contract sees what is left of the line, and nothing at all once its end was taken.
///
/// # Proved
///
/// ```text
/// ghost Value = { Option (List ℕ) }
/// ghost view = { λ w. option_copied w.rest }
/// ```
#[derive(Debug)]
pub struct Words<'a> {
    rest: Option<&'a str>,
}

impl<'a> Words<'a> {
    /// All of a line.
    ///
    /// # Proved
    ///
    /// ```text
    /// ensures { result ≡ Some line.now }
    /// ```
    #[inline]
    pub fn of(line: &'a str) -> Words<'a> {
        Words { rest: Some(line) }
    }

    /// Takes the next word. There is none at the end of the line, and none where two spaces meet.
    ///
    /// # Proved
    ///
    /// ```text
    /// ensures word { option_copied result ≡ first_word self.old }
    /// ensures rest { self.new ≡ past_first_word self.old }
    /// ```
    #[inline]
    pub fn word(&mut self) -> Option<&'a str> {
        let rest = self.rest?;
        let (word, others) = cut_word(rest);
        self.rest = others;
        if word.is_empty() { None } else { Some(word) }
    }

    /// Takes the next word where decimal digits alone write a number of 32 bits.
    ///
    /// # Proved
    ///
    /// ```text
    /// ensures number { result ≡ next_u32 self.old }
    /// ensures rest { self.new ≡ past_first_word self.old }
    /// ```
    #[inline]
    pub fn number(&mut self) -> Option<u32> {
        let value = decimal(self.word()?)?;
        u32::try_from(value).ok()
    }

    /// Takes the next word where decimal digits alone write a number of 64 bits.
    ///
    /// # Proved
    ///
    /// ```text
    /// ensures number { result ≡ next_u64 self.old }
    /// ensures rest { self.new ≡ past_first_word self.old }
    /// ```
    #[inline]
    pub fn number_64(&mut self) -> Option<usize> {
        let value = decimal(self.word()?)?;
        usize::try_from(value).ok()
    }

    /// Takes the next word where hexadecimal digits alone, of either case, write the number of a character.
    ///
    /// # Proved
    ///
    /// ```text
    /// ensures character { result ≡ next_character self.old }
    /// ensures rest { self.new ≡ past_first_word self.old }
    /// ```
    #[inline]
    pub fn character(&mut self) -> Option<char> {
        let code = hexadecimal(self.word()?)?;
        char::from_u32(code)
    }

    /// Takes the next word as the name of a script, where it names one; `-` names none.
    ///
    /// # Proved
    ///
    /// ```text
    /// ensures script { result ≡ next_script self.old }
    /// ensures rest { self.new ≡ past_first_word self.old }
    /// ```
    #[inline]
    pub fn script(&mut self) -> Option<Option<Script>> {
        match self.word()? {
            "-" => Some(None),
            word => Some(Some(word.parse::<Script>().ok()?)),
        }
    }

    /// Takes the next word as the text of a language; `-` names none.
    ///
    /// # Proved
    ///
    /// ```text
    /// ensures language { option_map (λ text. option_copied text) result ≡ next_language self.old }
    /// ensures rest { self.new ≡ past_first_word self.old }
    /// ```
    #[inline]
    pub fn language(&mut self) -> Option<Option<&'a str>> {
        match self.word()? {
            "-" => Some(None),
            word => Some(Some(word)),
        }
    }

    /// Takes all that is left after the last space, which may be an empty text.
    ///
    /// # Proved
    ///
    /// ```text
    /// ensures text { option_copied result ≡ self.old }
    /// ensures rest { self.new ≡ None }
    /// ```
    #[inline]
    pub fn text(&mut self) -> Option<&'a str> {
        self.rest.take()
    }

    /// Whether the whole line was taken.
    ///
    /// # Proved
    ///
    /// ```text
    /// ensures { IsTrue result ↔ (self.now ≡ None) }
    /// ```
    #[inline]
    pub fn at_end(&self) -> bool {
        self.rest.is_none()
    }
}

/// What stands before the first space, and what follows it, where there is one.
fn cut_word(text: &str) -> (&str, Option<&str>) {
    match text.split_once(' ') {
        Some((word, others)) => (word, Some(others)),
        None => (text, None),
    }
}

/// The number that decimal digits alone write, where it fits.
fn decimal(word: &str) -> Option<u64> {
    if !is_all_digits(word) {
        return None;
    }
    word.parse::<u64>().ok()
}

fn is_all_digits(word: &str) -> bool {
    word.bytes().all(|b| b.is_ascii_digit())
}

/// The number that hexadecimal digits alone write, where it fits.
fn hexadecimal(word: &str) -> Option<u32> {
    if !is_all_hexadecimal_digits(word) {
        return None;
    }
    u32::from_str_radix(word, 16).ok()
}

fn is_all_hexadecimal_digits(word: &str) -> bool {
    word.bytes().all(|b| b.is_ascii_hexdigit())
}
