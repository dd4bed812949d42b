use crate::Fail;
use crate::buffer::lists::{add, push};
use vukhaso::internals::buffer::{
    BufferClusterLevel, BufferFlags, Direction, Language, Script, UnicodeBuffer, script,
};
use vukhaso::memory::String;

/// The ids and clusters of a text.
fn assert_text(text: UnicodeBuffer, want: &[(u32, u32)]) {
    let buffer = text.into_buffer();
    assert!(buffer.info().len() == want.len());
    for (glyph, pair) in buffer.info().iter().zip(want.iter()) {
        let found = (glyph.glyph_id, glyph.cluster);
        assert!((found, glyph.mask) == (*pair, 0), "{want:?}");
    }
}

#[test]
fn characters_are_numbered_by_their_first_bytes() {
    let mut text = UnicodeBuffer::new();
    assert!(text.is_empty());
    for part in ["éz", "a"] {
        push(&mut text, part);
    }
    add(&mut text, 'y', 7);
    assert!(text.len() == 4);
    assert_text(text, &[(233, 0), (122, 2), (97, 0), (121, 7)]);
}

#[test]
fn clusters_are_numbered_anew() {
    let mut text = UnicodeBuffer::new();
    push(&mut text, "éz");
    text.reset_clusters();
    assert_text(text, &[(233, 0), (122, 1)]);
}

/// The context after a text of one character, which is pushed, or added.
fn assert_after(mut text: UnicodeBuffer, pushes: bool, want: &[char]) {
    set_contexts(&mut text, "abcdefg");
    if pushes {
        push(&mut text, "x");
    } else {
        add(&mut text, 'x', 0);
    }
    let buffer = text.into_buffer();
    assert!(buffer.context(0) == ['g', 'f', 'e', 'd', 'c'].as_slice());
    assert!(buffer.context(1) == want);
}

fn set_contexts(text: &mut UnicodeBuffer, context: &str) {
    text.set_pre_context(context);
    text.set_post_context(context);
}

#[test]
fn contexts_keep_the_nearest_five() -> Result<(), Fail> {
    let text = UnicodeBuffer::new();
    assert_after(text, true, ['a', 'b', 'c', 'd', 'e'].as_slice());
    assert_after(UnicodeBuffer::new(), false, [].as_slice());
    Ok(())
}

/// Guesses from one character.
fn assert_guess(mut text: UnicodeBuffer, c: char, want: (Script, Direction)) {
    add(&mut text, c, 0);
    text.guess_segment_properties();
    assert!((text.script(), text.direction()) == want);
}

#[test]
fn scripts_and_directions_are_guessed() -> Result<(), Fail> {
    let hebrew = (script::HEBREW, Direction::RightToLeft);
    assert_guess(UnicodeBuffer::new(), '\u{5D0}', hebrew);
    let unknown = (script::UNKNOWN, Direction::LeftToRight);
    assert_guess(UnicodeBuffer::new(), '1', unknown);
    Ok(())
}

/// A text of which everything is said.
fn described() -> UnicodeBuffer {
    let mut text = UnicodeBuffer::new();
    text.set_direction(Direction::BottomToTop);
    text.set_script(script::ARABIC);
    text.set_flags(BufferFlags::VERIFY);
    text
}

#[test]
fn what_is_said_of_a_text_is_told_again() {
    let text = described();
    assert!(text.direction() == Direction::BottomToTop);
    assert!(text.script() == script::ARABIC);
}

#[test]
fn what_was_said_is_cleared() {
    let mut text = described();
    text.clear();
    assert!(text.script() == script::UNKNOWN);
    assert!(text.flags().bits() == 0x20);
    text.set_not_found_variation_selector_glyph(9);
    assert!(text.into_buffer().not_found_variation_selector == Some(9));
}

fn assert_language(mut text: UnicodeBuffer, said: Language, want: &str) {
    assert!(text.language().is_none());
    text.set_language(said);
    assert!(
        text.language()
            .is_some_and(|language| language.as_str() == want)
    );
}

#[test]
fn languages_are_told_again() -> Result<(), Fail> {
    let said = Language::from_str("En")?;
    assert_language(UnicodeBuffer::new(), said, "en");
    Ok(())
}

#[test]
fn levels_are_told_again() -> Result<(), Fail> {
    let mut text = UnicodeBuffer::new();
    text.set_cluster_level(BufferClusterLevel::Characters);
    assert!(text.cluster_level() == BufferClusterLevel::Characters);
    assert!(BufferClusterLevel::default() == BufferClusterLevel::MonotoneGraphemes);
    let printed = String::format(format_args!("{:?}", BufferClusterLevel::default()))?;
    assert!(printed.as_str() == "MonotoneGraphemes");
    Ok(())
}
