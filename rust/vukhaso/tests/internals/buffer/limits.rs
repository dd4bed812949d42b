use crate::buffer::lists::buffer_of;
use vukhaso::internals::buffer::hb_buffer_t;

/// The limits after `enter` over a text, and that `leave` puts them back.
fn assert_limits(text: &str, max_len: usize, max_ops: i32) {
    let mut buffer = buffer_of(text);
    enter(&mut buffer);
    assert!((buffer.max_len(), buffer.max_ops) == (max_len, max_ops));
    leave(&mut buffer);
    assert!((buffer.max_len(), buffer.max_ops) == (1_073_741_823, 536_870_911));
}

fn enter(buffer: &mut hb_buffer_t) {
    assert!(!buffer.have_output());
    buffer.enter();
}

fn leave(buffer: &mut hb_buffer_t) {
    assert!(!buffer.have_output());
    buffer.leave();
}

#[test]
fn limits_follow_the_length() {
    assert_limits("abc", 16_384, 16_384);
    let long = "abcdefghijabcdefghijabcdefghijabcdefghijabcdefghij\
        abcdefghijabcdefghijabcdefghijabcdefghijabcdefghij\
        abcdefghijabcdefghijabcdefghijabcdefghijabcdefghij\
        abcdefghijabcdefghijabcdefghijabcdefghijabcdefghij\
        abcdefghijabcdefghijabcdefghijabcdefghijabcdefghij\
        abcdefghijabcdefghijabcdefghijabcdefghijabcdefghij";
    assert_limits(long, 19_200, 307_200);
}

#[test]
fn ligatures_have_numbers_from_one_to_seven() {
    let mut buffer = hb_buffer_t::new();
    for (serial, number, next) in [(7, 1, 9), (254, 7, 255), (255, 1, 1)] {
        buffer.serial = serial;
        assert!((buffer.allocate_lig_id(), buffer.serial) == (number, next));
    }
}

fn set_max_len(buffer: &mut hb_buffer_t, len: usize) {
    assert!(buffer.len() <= len && buffer.out_len() <= len);
    buffer.set_max_len(len);
}

fn assert_ensured(buffer: &mut hb_buffer_t, size: usize, done: bool) {
    assert!(buffer.ensure(size) == Ok(done), "{size}");
}

fn assert_room(buffer: &hb_buffer_t, len: usize, room: usize) {
    assert!((buffer.len(), buffer.room()) == (len, room));
}

#[test]
fn room_is_made_up_to_the_limit() {
    let mut buffer = hb_buffer_t::new();
    set_max_len(&mut buffer, 8);
    for (size, done) in [(8, true), (9, false)] {
        assert_ensured(&mut buffer, size, done);
    }
    assert_room(&buffer, 0, 8);
    assert!(!buffer.successful());
}

#[test]
fn room_is_never_taken_away() {
    let mut buffer = buffer_of("abc");
    assert_room(&buffer, 3, 0);
    for size in [5, 2] {
        assert_ensured(&mut buffer, size, true);
        assert_room(&buffer, 3, 5);
    }
    buffer.clear();
    assert_room(&buffer, 0, 5);
}
