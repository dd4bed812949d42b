//! Forms of letters: examples of the Unicode Standard, sections 9.2 and 9.3.

use crate::scripts::texts::{buffer_of, plan_of};
use vukhaso::internals::buffer::hb_buffer_t;
use vukhaso::internals::script_shapers::ScriptShaper;

/// The masks of all forms.
const FORMS: u32 = 0x7F0;

const FINA: u32 = 0x20;

const INIT: u32 = 0x400;

/// The letters of a text with the masks of their forms.
fn formed(text: &str) -> hb_buffer_t {
    let mut buffer = buffer_of(text);
    plan_of(ScriptShaper::Arabic).setup_masks(&mut buffer);
    buffer
}

/// Manichaean has letters that join to the next one alone: aleph does not join, heth does.
#[test]
fn left_joining() {
    let buffer = formed("\u{10ad7}\u{10ac1}");
    match buffer.info() {
        [heth, aleph] => assert_eq!([heth.mask & FORMS, aleph.mask & FORMS], [INIT, FINA]),
        _ => panic!("two letters"),
    }
}
