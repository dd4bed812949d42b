// Written by tools/plain_rust from crates/shaping_session. Do not edit.

//! Commands from a reader, and their answers to a writer.

use crate::shaping_session::command::parse_bytes;
use crate::shaping_session::reply::Reply;
use crate::shaping_session::session::Session;
use std::io::{ErrorKind, Read, Write};
use vukhaso::memory::{AllocError, Vec};

/// Why a run ended early.
#[derive(Clone, Copy, PartialEq, Eq, Debug)]
pub enum RunFault {
    /// The reader failed, or did not end. Nothing was written.
    Read = 1,
    /// The writer failed: a write, or the flush. It took a beginning of the answers.
    Write = 2,
    /// There was no memory. The commands before were answered; while the input was read, nothing was written.
    Memory = 3,
}

impl RunFault {
    /// What the program says of it on standard error.
    ///
    /// # Proved
    ///
    /// ```text
    /// ensures { result.now ≡ fault_text self }
    /// ```
    #[inline]
    pub fn message(self) -> &'static str {
        match self {
            RunFault::Read => "read failed",
            RunFault::Write => "write failed",
            RunFault::Memory => "out of memory",
        }
    }
}

/// How many bytes are read at once, and how many are held back before they are written.
const PIECE: usize = 65536;

/// The most reads that a run makes.
const READS: u32 = 65536;

/// Reads all there is, and then answers each line with one line. The status is 0, or 2 after an unknown
/// command, which is answered as such and ends the run.
///
/// A line feed ends a line, and the last line may lack it. A read or a write that was interrupted is
/// made again, and one that failed otherwise is not. An input of which 65536 reads meet no end is a
/// fault.
///
/// # Errors
///
/// `Err`: the clauses below say when.
///
/// # Proved
///
/// ```text
/// ensures { IfOk result (λ status. (status ≡ 0) ⊎ (status ≡ 2)) }
/// ```
#[inline]
pub fn run<R: Read, W: Write>(mut reader: R, mut writer: W) -> Result<u8, RunFault> {
    run_on(&mut reader, &mut writer)
}

/// Does what `run` does, over a reader and a writer that are lent.
///
/// # Errors
///
/// `Err`: the clauses below say when.
///
/// # Proved
///
/// ```text
/// ensures status { IfOk result (λ status. (status ≡ 0) ⊎ (status ≡ 2)) }
/// ensures unread { result ≡ Err RunFault.Read → writer.new ≡ writer.old }
/// ensures writes { Answers (R.remaining reader.old) (R.remaining reader.new)
///     (W.contents writer.old) (W.contents writer.new) result }
/// ```
#[inline]
pub fn run_on<R: Read, W: Write>(reader: &mut R, writer: &mut W) -> Result<u8, RunFault> {
    let input = read_all(reader)?;
    let Ok(mut held) = Vec::with_capacity(PIECE) else {
        return Err(RunFault::Memory);
    };
    let outcome = answer_lines(input.as_slice(), writer, &mut held);
    finish(writer, &mut held, outcome)
}

/// After a failed write nothing more is written.
///
/// It is public for its test alone, which counts the flushes after each outcome.
///
/// # Errors
///
/// Writes what is held back and flushes, also after memory ran out, and then gives the outcome. `Err`:
/// the clauses below say when.
///
/// # Proved
///
/// ```text
/// ensures { Finishes (W.contents writer.old) (W.contents writer.new)
///     held.old.items outcome result }
/// ```
#[inline]
pub fn finish<W: Write>(
    writer: &mut W,
    held: &mut Vec<u8>,
    outcome: Result<u8, RunFault>,
) -> Result<u8, RunFault> {
    if outcome == Err(RunFault::Write) {
        return outcome;
    }
    write_held(writer, held)?;
    writer.flush().map_err(|_| RunFault::Write)?;
    outcome
}

/// All that the reader gives.
fn read_all<R: Read>(reader: &mut R) -> Result<Vec<u8>, RunFault> {
    let mut input = Vec::new();
    let mut room = room_for_a_piece()?;
    let piece = room.as_mut_slice();
    for _ in 0..READS {
        if read_piece(reader, piece, &mut input)? {
            return Ok(input);
        }
    }
    Err(RunFault::Read)
}

fn room_for_a_piece() -> Result<Vec<u8>, RunFault> {
    Vec::from_elem(0u8, PIECE).map_err(|_| RunFault::Memory)
}

/// Reads a piece and puts it at the end of the input. It says whether the reader is at its end.
///
/// # Requires
///
/// - `0 < length piece.old`
fn read_piece<R: Read>(
    reader: &mut R,
    piece: &mut [u8],
    input: &mut Vec<u8>,
) -> Result<bool, RunFault> {
    debug_assert!(!piece.is_empty());
    match reader.read(piece) {
        Ok(0) => Ok(true),
        Ok(n) => {
            if input.extend_from_slice(&piece[..n]).is_err() {
                return Err(RunFault::Memory);
            }
            Ok(false)
        }
        Err(e) if e.kind() == ErrorKind::Interrupted => Ok(false),
        Err(_) => Err(RunFault::Read),
    }
}

/// Answers each line. What is not written yet is held.
///
/// # Requires
///
/// - `held.old.items ≡ []`
fn answer_lines<W: Write>(
    input: &[u8],
    writer: &mut W,
    held: &mut Vec<u8>,
) -> Result<u8, RunFault> {
    let mut session = Session::new();
    let mut rest = input;
    while !rest.is_empty() {
        let (line, others) = cut_line(rest);
        rest = others;
        let Ok(obeyed) = obey_line(session, line) else {
            return Err(RunFault::Memory);
        };
        let Some((next, reply)) = obeyed else {
            put_line(writer, held, "unknown command")?;
            return Ok(2);
        };
        session = next;
        put_line(writer, held, reply.as_str())?;
    }
    Ok(0)
}

/// Obeys a line, and answers `None` where it is no command.
fn obey_line(session: Session, line: &[u8]) -> Result<Option<(Session, Reply)>, AllocError> {
    match parse_bytes(line)? {
        Some(command) => Ok(Some(session.obey(command)?)),
        None => Ok(None),
    }
}

/// The first line, and what comes after its end.
///
/// # Requires
///
/// - `0 < length bytes.now`
fn cut_line(bytes: &[u8]) -> (&[u8], &[u8]) {
    debug_assert!(!bytes.is_empty());
    match line_feed(bytes) {
        None => (bytes, &[]),
        Some(end) => (&bytes[..end], &bytes[end + 1..]),
    }
}

fn line_feed(bytes: &[u8]) -> Option<usize> {
    bytes.iter().position(|b| *b == b'\n')
}

/// Writes a line, or holds it back.
fn put_line<W: Write>(writer: &mut W, held: &mut Vec<u8>, line: &str) -> Result<(), RunFault> {
    put(writer, held, line.as_bytes())?;
    put(writer, held, b"\n")
}

/// Holds bytes back where there is room for them, and else writes what is held first.
fn put<W: Write>(writer: &mut W, held: &mut Vec<u8>, bytes: &[u8]) -> Result<(), RunFault> {
    if bytes.len() <= held.capacity() - held.len() {
        hold(held, bytes);
        return Ok(());
    }
    write_held(writer, held)?;
    if bytes.len() <= held.capacity() {
        hold(held, bytes);
        return Ok(());
    }
    write_whole(writer, bytes)
}

/// Holds bytes back. There is room for them.
///
/// # Requires
///
/// - `vec_len held.old + length bytes.now ≤ vec_capacity held.old`
fn hold(held: &mut Vec<u8>, bytes: &[u8]) {
    debug_assert!(held.len() + bytes.len() <= held.capacity());
    let _ = held.extend_from_slice(bytes);
}

/// Writes what is held.
fn write_held<W: Write>(writer: &mut W, held: &mut Vec<u8>) -> Result<(), RunFault> {
    write_whole(writer, held.as_slice())?;
    held.clear();
    Ok(())
}

/// Makes writes until all of these bytes are taken. After a write that failed the writer has a
/// beginning of them.
fn write_whole<W: Write>(writer: &mut W, bytes: &[u8]) -> Result<(), RunFault> {
    let mut rest = bytes;
    for _ in 0..u64::MAX {
        if rest.is_empty() {
            return Ok(());
        }
        rest = write_some(writer, rest)?;
    }
    Err(RunFault::Write)
}

/// Makes one write, and gives the bytes that are left: all of them where it was interrupted. A write
/// that takes nothing is a fault, as is any other error.
fn write_some<'a, W: Write>(writer: &mut W, bytes: &'a [u8]) -> Result<&'a [u8], RunFault> {
    match writer.write(bytes) {
        Ok(0) => Err(RunFault::Write),
        Ok(n) => Ok(&bytes[n..]),
        Err(e) if e.kind() == ErrorKind::Interrupted => Ok(bytes),
        Err(_) => Err(RunFault::Write),
    }
}
