//! Lines that are read, and answers that are written.

use crate::Fail;
use std::io::{self, BufRead, ErrorKind, Read, Write};
use vukhaso::internals::lines::answers::{Answer, write_answer};
use vukhaso::internals::lines::errors::LinesError;
use vukhaso::internals::lines::reading::{Reading, next_line};
use vukhaso::internals::options::options::TextSource;
use vukhaso::memory::{String, Vec};

/// A text, how it is read, and its lines.
static LINES: [(&[u8], Reading, &[&[u8]]); 14] = [
    (b"", Reading::Strings, &[]),
    (b"a", Reading::Strings, &[b"a"]),
    (b"a\n", Reading::Strings, &[b"a"]),
    (b"a\n\nbc", Reading::Strings, &[b"a", b"", b"bc"]),
    (b"\n\n", Reading::Strings, &[b"", b""]),
    (b"ab\0cd\nef\ng", Reading::Strings, &[b"abef", b"g"]),
    (b"ab\0cd\n\0\n\nef", Reading::Strings, &[b"ab", b"ef"]),
    (b"\0", Reading::Strings, &[]),
    (b"x\n\0\n\0", Reading::Strings, &[b"x"]),
    (b"\n\0", Reading::Strings, &[b""]),
    (b"ab\0", Reading::Strings, &[b"ab"]),
    (b"", Reading::Whole, &[]),
    (b"\0", Reading::Whole, &[b"\0"]),
    (b"ab\0cd\n\nef", Reading::Whole, &[b"ab\0cd", b"", b"ef"]),
];

#[test]
fn lines_are_taken() -> Result<(), Fail> {
    for (text, reading, lines) in &LINES {
        let mut reader: &[u8] = text;
        let mut line = Vec::new();
        for wanted in *lines {
            assert!(
                next_line(&mut reader, *reading, &mut line).is_ok_and(|found| found),
                "{text:?}"
            );
            assert!(line.as_slice() == *wanted, "{text:?}");
        }
        assert!(
            next_line(&mut reader, *reading, &mut line).is_ok_and(|found| !found),
            "{text:?}"
        );
    }
    Ok(())
}

/// How many bytes are read before a byte 0 in a line, how many behind it, and how many of these are seen.
const LONG_LINES: [(usize, usize, usize); 5] = [
    (5, 8185, 0),
    (5, 8186, 1),
    (5, 16_376, 8191),
    (8190, 3, 3),
    (8191, 3, 0),
];

#[test]
fn strings_have_room_for_8_191_bytes() -> Result<(), Fail> {
    for (before, behind, seen) in LONG_LINES {
        let mut text = Vec::from_elem(b'a', before)?;
        text.push(0)?;
        text.resize(before + 1 + behind, b'b')?;
        let mut reader: &[u8] = text.as_slice();
        let mut line = Vec::new();
        let found = next_line(&mut reader, Reading::Strings, &mut line);
        assert!(found.is_ok_and(|found| found));
        assert!(
            line.len() == before + seen,
            "{before} and {behind}: {}",
            line.len()
        );
    }
    Ok(())
}

#[test]
fn words_are_read_whole() {
    assert!(Reading::of(&TextSource::Given("a")) == Reading::Whole);
    assert!(Reading::of(&TextSource::CodePoints(String::new())) == Reading::Whole);
    assert!(Reading::of(&TextSource::File("a")) == Reading::Strings);
    assert!(Reading::of(&TextSource::Input) == Reading::Strings);
}

#[test]
fn answers_are_written() -> Result<(), Fail> {
    let glyphs = Answer::Glyphs(String::from_str("a=0+600|b=1+600")?);
    let objects = Answer::Objects(Vec::from_slice(b"{}")?);
    let rows: [(&Answer, &[u8]); 4] = [
        (&Answer::Empty, b"\n"),
        (&glyphs, b"[a=0+600|b=1+600]\n"),
        (&objects, b"[{}]\n"),
        (&Answer::Failed, b"error: Shaping failed.\n"),
    ];
    for (answer, wanted) in rows {
        let mut written = std::vec::Vec::new();
        assert!(write_answer(&mut written, answer).is_ok(), "{wanted:?}");
        assert!(written.as_slice() == wanted, "{wanted:?}");
    }
    Ok(())
}

/// Gives some bytes, and then an error; takes no bytes.
struct Broken<'a>(&'a [u8]);

impl Read for Broken<'_> {
    fn read(&mut self, _buf: &mut [u8]) -> io::Result<usize> {
        Err(io::Error::from(ErrorKind::Other))
    }
}

impl BufRead for Broken<'_> {
    fn fill_buf(&mut self) -> io::Result<&[u8]> {
        if self.0.is_empty() {
            Err(io::Error::from(ErrorKind::Other))
        } else {
            Ok(self.0)
        }
    }

    fn consume(&mut self, amount: usize) {
        self.0 = self.0.get(amount..).unwrap_or(&[]);
    }
}

impl Write for Broken<'_> {
    fn write(&mut self, _buf: &[u8]) -> io::Result<usize> {
        Err(io::Error::from(ErrorKind::Other))
    }

    fn flush(&mut self) -> io::Result<()> {
        Ok(())
    }
}

#[test]
fn failures_are_told() {
    let mut reader = Broken(b"a\nb");
    let mut line = Vec::new();
    assert!(next_line(&mut reader, Reading::Strings, &mut line).is_ok_and(|found| found));
    let failed = next_line(&mut reader, Reading::Strings, &mut line);
    assert!(matches!(&failed, Err(LinesError::Read(_))));
    let failed = write_answer(&mut Broken(b""), &Answer::Empty);
    assert!(matches!(&failed, Err(LinesError::Write(_))));
}
