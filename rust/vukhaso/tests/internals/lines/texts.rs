//! Lines that are no texts. The texts of UTF-8 are those of the Unicode standard.

use crate::Fail;
use vukhaso::internals::lines::text::lossy_text;

/// Bytes, and their text.
static BYTES: [(&[u8], &str); 5] = [
    (b"abc", "abc"),
    (b"a\xFFb", "a\u{FFFD}b"),
    (b"\xE2\x82", "\u{FFFD}\u{FFFD}"),
    (b"\xE2\x82\xACx\xC0\x80", "\u{20AC}x\u{FFFD}\u{FFFD}"),
    (b"\xED\xA0\x80", "\u{FFFD}\u{FFFD}\u{FFFD}"),
];

#[test]
fn bytes_that_are_no_text_are_replaced() -> Result<(), Fail> {
    for (bytes, text) in &BYTES {
        let read = lossy_text(bytes)?;
        assert_eq!(read.as_str(), *text);
    }
    Ok(())
}
