use crate::Fail;
use vukhaso::internals::glyph::hb_glyph_info_t;
use vukhaso::internals::glyph_lists::guess::{first_script, guess_direction};
use vukhaso::internals::text::{Direction, script};

fn item(c: char) -> hb_glyph_info_t {
    hb_glyph_info_t {
        glyph_id: c as u32,
        mask: 0,
        cluster: 0,
        var1: 0,
        var2: 0,
    }
}

#[test]
fn a_hebrew_letter_tells_the_script() -> Result<(), Fail> {
    let guessed = first_script(&[item('\u{5d0}')]);
    assert!(guessed == Some(script::HEBREW));
    assert!(guess_direction(guessed) == Direction::RightToLeft);
    Ok(())
}

#[test]
fn common_inherited_and_unknown_characters_are_passed_over() -> Result<(), Fail> {
    let info = [
        item('('),
        item('\u{301}'),
        item('\u{378}'),
        item('a'),
        item('\u{5d0}'),
    ];
    assert!(first_script(&info) == Some(script::LATIN));
    Ok(())
}

#[test]
fn a_script_that_is_written_either_way_is_taken_from_left_to_right() -> Result<(), Fail> {
    assert!(guess_direction(Some(script::RUNIC)) == Direction::LeftToRight);
    assert!(guess_direction(Some(script::ARABIC)) == Direction::RightToLeft);
    Ok(())
}

#[test]
fn digits_tell_no_script() -> Result<(), Fail> {
    let guessed = first_script(&[item('1'), item('2')]);
    assert!(guessed.is_none());
    assert!(guess_direction(guessed) == Direction::LeftToRight);
    Ok(())
}
