//! Readers and writers that are slow, fail or do not end.

use crate::shaping_session::run::{RunFault, finish, run, run_on};
use std::io::{self, ErrorKind, Read, Write};
use std::ops::Range;
use vukhaso::memory::AllocError;

const LINES: &[u8] = b"push ab\nclear_output\nnext_glyph\nsync\nserialize 4\n";

/// How a read or a write may fail. Only one that was interrupted is made again.
const FAILURES: [ErrorKind; 4] = [
    ErrorKind::Other,
    ErrorKind::WouldBlock,
    ErrorKind::TimedOut,
    ErrorKind::BrokenPipe,
];

const ANSWERS: &[u8] = b"true\ndone\ndone\ndone\n97=0+0|98=1+0\n";

/// Gives one byte a read, but an error at a read that is picked out, and is interrupted at others. Behind its bytes
/// it may give line feeds for ever.
pub struct SlowReader<'a> {
    bytes: &'a [u8],
    is_endless: bool,
    pub fails_at: usize,
    failure: ErrorKind,
    interrupted: Range<usize>,
    reads: usize,
    largest: usize,
}

impl<'a> SlowReader<'a> {
    pub fn new(bytes: &'a [u8]) -> Self {
        SlowReader {
            bytes,
            is_endless: false,
            fails_at: usize::MAX,
            failure: ErrorKind::Other,
            interrupted: 0..0,
            reads: 0,
            largest: 0,
        }
    }
}

impl Read for SlowReader<'_> {
    fn read(&mut self, buf: &mut [u8]) -> io::Result<usize> {
        let read = self.reads;
        self.reads = read.wrapping_add(1);
        self.largest = self.largest.max(buf.len());
        if read == self.fails_at {
            return Err(io::Error::from(self.failure));
        }
        if self.interrupted.contains(&read) {
            return Err(io::Error::from(ErrorKind::Interrupted));
        }
        match self.bytes.split_first() {
            Some((first, others)) if !buf.is_empty() => {
                buf[0] = *first;
                self.bytes = others;
                Ok(1)
            }
            None if self.is_endless && !buf.is_empty() => {
                buf[0] = b'\n';
                Ok(1)
            }
            _ => Ok(0),
        }
    }
}

/// Takes one byte a write, but fails at one of the writes, or takes nothing there.
struct SlowWriter {
    written: Vec<u8>,
    writes: usize,
    fails_at: usize,
    failure: Option<ErrorKind>,
    flushes: usize,
    flush_fails: bool,
}

impl SlowWriter {
    fn new(fails_at: usize) -> Self {
        SlowWriter {
            written: Vec::new(),
            writes: 0,
            fails_at,
            failure: Some(ErrorKind::Other),
            flushes: 0,
            flush_fails: false,
        }
    }
}

impl Write for SlowWriter {
    fn write(&mut self, buf: &[u8]) -> io::Result<usize> {
        let write = self.writes;
        self.writes = write.wrapping_add(1);
        if write == self.fails_at || buf.is_empty() {
            return match self.failure {
                Some(kind) => Err(io::Error::from(kind)),
                None => Ok(0),
            };
        }
        self.written.push(buf[0]);
        Ok(1)
    }

    fn flush(&mut self) -> io::Result<()> {
        self.flushes = self.flushes.wrapping_add(1);
        if self.flush_fails {
            return Err(io::Error::from(ErrorKind::Other));
        }
        Ok(())
    }
}

#[test]
fn each_read_may_be_short_or_interrupted_or_fail() {
    for read in 0..=LINES.len() {
        let mut written = Vec::new();
        let mut reader = SlowReader::new(LINES);
        reader.interrupted = read..read + 1;
        let outcome = run_on(&mut reader, &mut written);
        assert!(outcome == Ok(0), "at {read}");
        assert!(written.as_slice() == ANSWERS, "at {read}");
        for failure in FAILURES {
            written.clear();
            let mut reader = SlowReader::new(LINES);
            reader.fails_at = read;
            reader.failure = failure;
            let outcome = run_on(&mut reader, &mut written);
            assert!(outcome == Err(RunFault::Read), "at {read}");
            assert!(written.is_empty(), "at {read}");
            assert!(reader.reads.wrapping_sub(1) == read, "at {read}");
        }
    }
}

#[test]
fn a_run_takes_its_reader_and_writer() {
    let mut written = Vec::new();
    assert!(run(LINES, &mut written) == Ok(0));
    assert!(written.as_slice() == ANSWERS);
    assert!(run(b"none\n".as_slice(), &mut written) == Ok(2));
}

#[test]
fn no_more_than_65536_reads_are_made() {
    for interrupted_to in [0, usize::MAX] {
        let mut written = Vec::new();
        let mut reader = SlowReader::new(b"");
        reader.is_endless = true;
        reader.interrupted = 0..interrupted_to;
        let outcome = run_on(&mut reader, &mut written);
        assert!(outcome == Err(RunFault::Read), "{interrupted_to}");
        assert!(written.is_empty(), "{interrupted_to}");
        assert!(
            (reader.reads, reader.largest) == (65536, 65536),
            "{interrupted_to}"
        );
    }
    let mut lines = vec![b'a'; 65535];
    lines.as_mut_slice()[..5].copy_from_slice(b"push ");
    let mut written = Vec::new();
    let mut reader = SlowReader::new(lines.as_slice());
    let outcome = run_on(&mut reader, &mut written);
    assert!(outcome == Ok(0));
    assert!(written.as_slice() == b"true\n".as_slice());
}

/// What was taken is a beginning of the answers, and after the failure nothing more is written.
#[test]
fn each_write_may_fail_or_take_nothing() {
    for fails_at in 0..ANSWERS.len() {
        for failure in FAILURES {
            cut_at(fails_at, Some(failure));
        }
        cut_at(fails_at, None);
    }
}

fn cut_at(fails_at: usize, failure: Option<ErrorKind>) {
    let mut writer = SlowWriter::new(fails_at);
    writer.failure = failure;
    let mut lines = LINES;
    let outcome = run_on(&mut lines, &mut writer);
    assert!(outcome == Err(RunFault::Write), "at {fails_at}");
    assert!(writer.written.len() == fails_at, "at {fails_at}");
    assert!(
        ANSWERS.starts_with(writer.written.as_slice()),
        "at {fails_at}"
    );
    assert!(writer.writes.wrapping_sub(1) == fails_at, "at {fails_at}");
    assert!(writer.flushes == 0, "at {fails_at}");
}

/// The run then fails at no write that did not, and at the flush alone.
#[test]
fn a_write_may_be_interrupted_and_the_flush_may_fail() {
    for write in 0..=ANSWERS.len() {
        let mut writer = SlowWriter::new(write);
        writer.failure = Some(ErrorKind::Interrupted);
        let mut lines = LINES;
        assert!(run_on(&mut lines, &mut writer) == Ok(0), "at {write}");
        assert!(writer.written.as_slice() == ANSWERS, "at {write}");
        assert!(writer.flushes == 1, "at {write}");
    }
    let mut writer = SlowWriter::new(usize::MAX);
    writer.flush_fails = true;
    let mut lines = LINES;
    let outcome = run_on(&mut lines, &mut writer);
    assert!(outcome == Err(RunFault::Write));
    assert!(writer.written.as_slice() == ANSWERS);
}

#[test]
fn what_is_held_is_flushed_before_any_outcome_but_a_failed_write() -> Result<(), AllocError> {
    let rows = [
        (Ok(0), 1),
        (Ok(2), 1),
        (Err(RunFault::Memory), 1),
        (Err(RunFault::Write), 0),
    ];
    for (outcome, flushes) in rows {
        let mut writer = SlowWriter::new(usize::MAX);
        let mut held = vukhaso::memory::Vec::new();
        held.extend_from_slice(b"true\n")?;
        assert!(
            finish(&mut writer, &mut held, outcome) == outcome,
            "at {outcome:?}"
        );
        assert!(writer.flushes == flushes, "at {outcome:?}");
        assert!(writer.written.len() == 5 * flushes, "at {outcome:?}");
    }
    Ok(())
}

#[test]
fn many_answers_and_a_long_one_are_written_in_order() {
    let mut lines = Vec::new();
    let mut answers = Vec::new();
    for _ in 0..9000 {
        lines.extend_from_slice(b"push abcdefgh\n");
        answers.extend_from_slice(b"true\n");
    }
    lines.extend_from_slice(b"serialize 6\nserialize 4\n");
    for i in 0..9000 {
        if i > 0 {
            answers.push(b'|');
        }
        answers.extend_from_slice(b"97=0|98=1|99=2|100=3|101=4|102=5|103=6|104=7");
    }
    answers.extend_from_slice(b"\n\n");
    let mut written = Vec::new();
    let mut rest = lines.as_slice();
    let outcome = run_on(&mut rest, &mut written);
    assert!(outcome == Ok(0));
    assert!(written.as_slice() == answers.as_slice());
}
