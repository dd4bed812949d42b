//! What is marked where shaping was given up.

use vukhaso::internals::buffer::{UnicodeBuffer, hb_buffer_t};
use vukhaso::internals::ot_positions::mark_given_up;
use vukhaso::memory::AllocError;

/// Three characters, of which shaping was given up or not.
fn line_of(is_given_up: bool) -> Result<hb_buffer_t, AllocError> {
    let mut text = UnicodeBuffer::new();
    let _ = text.push_str("abc")?;
    let mut buffer = text.into_buffer();
    buffer.clear_positions();
    buffer.shaping_failed = is_given_up;
    Ok(buffer)
}

/// Whether a line may not be broken before the character at a place.
fn is_unsafe(buffer: &hb_buffer_t, place: usize) -> bool {
    match buffer.info().get(place) {
        Some(glyph) => glyph.unsafe_to_break(),
        None => false,
    }
}

/// Which of the three characters a line may not be broken before.
fn unsafe_in(is_given_up: bool) -> Result<[bool; 3], AllocError> {
    let mut buffer = line_of(is_given_up)?;
    mark_given_up(&mut buffer);
    Ok([
        is_unsafe(&buffer, 0),
        is_unsafe(&buffer, 1),
        is_unsafe(&buffer, 2),
    ])
}

/// All clusters but the first are unsafe to break.
#[test]
fn a_text_that_is_given_up() {
    assert_eq!(unsafe_in(false), Ok([false; 3]));
    assert_eq!(unsafe_in(true), Ok([false, true, true]));
}
