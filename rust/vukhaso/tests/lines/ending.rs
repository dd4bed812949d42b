//! How the program ends: its status, and what it says on standard error.

use crate::program::run_to_end;
use crate::streams::SlowReader;
use std::io::{self, ErrorKind, Write};

/// Keeps what it is given, or fails.
struct Listener {
    is_deaf: bool,
    heard: Vec<u8>,
}

impl Listener {
    fn new(is_deaf: bool) -> Listener {
        Listener {
            is_deaf,
            heard: Vec::new(),
        }
    }
}

impl Write for Listener {
    fn write(&mut self, buf: &[u8]) -> io::Result<usize> {
        if self.is_deaf {
            return Err(io::Error::from(ErrorKind::BrokenPipe));
        }
        self.heard.extend_from_slice(buf);
        Ok(buf.len())
    }

    fn flush(&mut self) -> io::Result<()> {
        Ok(())
    }
}

#[test]
fn the_status_is_that_of_the_run_which_says_nothing() {
    let rows: [(&[u8], u8, &[u8]); 2] = [
        (b"push a\n", 0, b"true\n"),
        (b"push a\nnothing\npush b\n", 2, b"true\nunknown command\n"),
    ];
    for (lines, status, answers) in rows {
        let mut reader = lines;
        let mut written = Vec::new();
        let mut error = Listener::new(false);
        let end = run_to_end(&mut reader, &mut written, &mut error);
        assert!(end == status, "{status}");
        assert!(written.as_slice() == answers, "{status}");
        assert!(error.heard.is_empty(), "{status}");
    }
}

#[test]
fn a_read_that_fails_is_told_and_ends_with_3() {
    let mut reader = SlowReader::new(b"push a\n");
    reader.fails_at = 1;
    let mut written = Vec::new();
    let mut error = Listener::new(false);
    let end = run_to_end(&mut reader, &mut written, &mut error);
    assert!(end == 3);
    assert!(error.heard == b"read failed\n");
    assert!(written.is_empty());
}

/// Also where standard error fails.
#[test]
fn a_write_that_fails_is_told_and_ends_with_3() {
    for (is_deaf, line) in [(false, b"write failed\n".as_slice()), (true, b"")] {
        let mut error = Listener::new(is_deaf);
        let mut lines: &[u8] = b"push a\n";
        let mut no_room: &mut [u8] = &mut [];
        let end = run_to_end(&mut lines, &mut no_room, &mut error);
        assert!(end == 3, "{is_deaf}");
        assert!(error.heard == line, "{is_deaf}");
    }
}
