use vukhaso::internals::text::{Tag, TextParser};

#[test]
fn bytes_are_read_from_the_left() {
    let mut p = TextParser::new("ab\t \"'aab12k_9,kerns");
    assert!(p.curr_byte() == Some(b'a'));
    p.advance(1);
    assert!([p.consume_byte(b'a'), p.consume_byte(b'b')] == [None, Some(())]);
    p.skip_spaces();
    let quotes = [p.consume_quote(), p.consume_quote(), p.consume_quote()];
    assert!(quotes == [Some(b'"'), Some(b'\''), None]);
    assert!(p.consume_bytes(|b| b == b'a').len() == 2);
    p.skip_bytes(|b| b != b'k');
    let tags = [p.consume_tag(), p.consume_tag()];
    assert!(tags == [Some(Tag(0x6b5f3920)), Some(Tag(0))]);
    assert!(p.consume_byte(b',') == Some(()));
    assert!(!p.at_end());
    assert!(p.consume_tag().is_none());
    assert!(p.at_end());
}

/// Texts, the numbers that they begin with, and the bytes after those.
static NUMBERS: [(&str, Option<i32>, Option<u8>); 11] = [
    ("12x", Some(12), Some(b'x')),
    ("+12", Some(12), None),
    ("-0012", Some(-12), None),
    ("2147483647", Some(2147483647), None),
    ("-2147483648", Some(-2147483648), None),
    ("2147483648,", None, Some(b',')),
    ("-2147483649,", None, Some(b',')),
    ("99999999999999999999,", None, Some(b',')),
    ("-x", None, Some(b'x')),
    ("--1", None, Some(b'-')),
    ("", None, None),
];

#[test]
fn numbers() {
    for &(text, number, next) in &NUMBERS {
        let mut p = TextParser::new(text);
        assert!((p.consume_i32(), p.curr_byte()) == (number, next), "{text}");
    }
}

/// Texts, what the words that they begin with say, and the bytes after those.
static TOGGLES: [(&str, Option<bool>, Option<u8>); 5] = [
    ("on", Some(true), None),
    (" \toN5", Some(true), Some(b'5')),
    ("OFF", Some(false), None),
    (" one.", None, Some(b'.')),
    (" 1", None, Some(b'1')),
];

#[test]
fn on_and_off() {
    for &(text, toggle, next) in &TOGGLES {
        let mut p = TextParser::new(text);
        assert!(
            (p.consume_bool(), p.curr_byte()) == (toggle, next),
            "{text}"
        );
    }
}
