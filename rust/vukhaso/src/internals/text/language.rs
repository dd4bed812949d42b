// Written by tools/plain_rust from crates/rb_text. Do not edit.

//! Languages, named by tags of BCP 47.

use crate::memory::{String, TryText};
use core::hash::{Hash, Hasher};

/// A language tag of BCP 47 (`en`, `zh-Hant`), with its ASCII letters made small. Nothing else of
/// the tag's form is checked. A contract sees a language as its bytes.
///
/// # Proved
///
/// ```text
/// ghost Value = { List ℕ }
/// ghost view = { λ l. string_bytes l.0 }
/// ```
#[derive(Debug)]
pub struct Language(String);

/// Why a text is no language.
#[derive(Clone, Copy, PartialEq, Eq, Debug)]
#[non_exhaustive]
pub enum LanguageError {
    /// The text is empty.
    Invalid = 1,
    /// There is no memory for a copy of the text.
    Memory = 2,
}

impl core::fmt::Display for LanguageError {
    fn fmt(&self, f: &mut core::fmt::Formatter<'_>) -> core::fmt::Result {
        match self {
            Self::Invalid => write!(f, "invalid language"),
            Self::Memory => write!(f, "out of memory"),
        }
    }
}

impl core::error::Error for LanguageError {}

impl Language {
    /// The language of a text, with its ASCII letters made small.
    ///
    /// # Errors
    ///
    /// The empty text is refused with [`LanguageError::Invalid`]. For any other, [`LanguageError::Memory`]
    /// says that there is no memory for a copy; nothing of the text is kept then.
    ///
    /// # Proved
    ///
    /// ```text
    /// ensures value { IfOk result (λ language. language ≡ map to_ascii_lowercase text.now) }
    /// ensures invalid { IsErrOf result LanguageError.Invalid ↔ (text.now ≡ []) }
    /// ensures memory { IsErrOf result LanguageError.Memory → 0 < length text.now }
    /// ```
    #[inline]
    pub fn from_str(text: &str) -> Result<Self, LanguageError> {
        if text.is_empty() {
            return Err(LanguageError::Invalid);
        }
        match text.try_to_ascii_lowercase() {
            Ok(lowercase) => Ok(Language(lowercase)),
            Err(_) => Err(LanguageError::Memory),
        }
    }

    /// The text of the language.
    ///
    /// # Proved
    ///
    /// ```text
    /// ensures { result.now ≡ self.now }
    /// ```
    #[inline]
    pub fn as_str(&self) -> &str {
        self.0.as_str()
    }
}

///
/// # Proved
///
/// ```text
/// ghost eq = { bytes_eq }
/// ghost laws = { partial_equiv_from_equiv nat_list_eq_equiv }
/// ```
impl PartialEq for Language {
    fn eq(&self, other: &Self) -> bool {
        self.as_str() == other.as_str()
    }
}

///
/// # Proved
///
/// ```text
/// ghost laws = { nat_list_eq_equiv }
/// ```
impl Eq for Language {}

///
/// # Proved
///
/// ```text
/// ghost hash_input = { fed.str }
/// ghost respects_eq = { Prim.search (hashing, rules) }
/// ```
impl Hash for Language {
    fn hash<H: Hasher>(&self, state: &mut H) {
        self.as_str().hash(state);
    }
}
