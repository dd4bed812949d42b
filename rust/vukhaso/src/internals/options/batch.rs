// Written by tools/plain_rust from crates/shape_options. Do not edit.

//! Command lines that standard input holds, one in a line.

use crate::memory::{AllocError, TryIterator, Vec};

/// The words of a line of a batch, behind the name of the program. One or more semicolons part them.
///
/// # Errors
///
/// `Err(AllocError)` where memory ran out.
///
/// # Proved
///
/// ```text
/// ensures { IfOk result (λ words.
///     map (λ word. word.now) words.items ≡ name.now ∷ batch_words line.now) }
/// ```
#[inline]
pub fn words_of_line<'a>(name: &'a str, line: &'a str) -> Result<Vec<&'a str>, AllocError> {
    let parts = parts_at_semicolons(line)?;
    let mut words = Vec::new();
    words.push(name)?;
    if let Some((first, others)) = parts.as_slice().split_first() {
        words.push(*first)?;
        push_words(&mut words, others)?;
    }
    Ok(words)
}

/// Adds the words among the parts behind the first.
fn push_words<'a>(words: &mut Vec<&'a str>, parts: &[&'a str]) -> Result<(), AllocError> {
    for i in 0..parts.len() {
        push_word(words, parts[i], parts.len() - 1 - i)?;
    }
    Ok(())
}

/// Adds a part where it is a word. This many parts stand behind it.
fn push_word<'a>(words: &mut Vec<&'a str>, part: &'a str, behind: usize) -> Result<(), AllocError> {
    if is_word(part, behind) {
        words.push(part)?;
    }
    Ok(())
}

/// Whether a part is a word, where this many parts stand behind it.
fn is_word(part: &str, behind: usize) -> bool {
    behind == 0 || !part.is_empty()
}

fn parts_at_semicolons<'a>(text: &'a str) -> Result<Vec<&'a str>, AllocError> {
    text.split(';').try_into_vec()
}
