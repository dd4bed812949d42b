// Written by tools/plain_rust from crates/glyph_lists. Do not edit.

//! The characters that a buffer keeps of the text before and after its own.

use crate::arrayvec::ArrayVec;

/// How many characters are kept on each side.
pub const CONTEXT_LENGTH: usize = 5;

/// The characters on one side, nearest to the buffer's text first.
pub type Context = ArrayVec<char, CONTEXT_LENGTH>;

/// Keeps the last characters of the text that stands before the buffer's own, from its end outward.
///
/// # Proved
///
/// ```text
/// ensures { context.new.items ≡ before_text text.now }
/// ```
#[inline]
pub fn keep_before(context: &mut Context, text: &str) {
    context.clear();
    for c in text.chars().rev().take(CONTEXT_LENGTH) {
        context.push(c);
    }
}

/// Keeps the first characters of the text that stands after the buffer's own.
///
/// # Proved
///
/// ```text
/// ensures { context.new.items ≡ after_text text.now }
/// ```
#[inline]
pub fn keep_after(context: &mut Context, text: &str) {
    context.clear();
    for c in text.chars().take(CONTEXT_LENGTH) {
        context.push(c);
    }
}
