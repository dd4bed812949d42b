//! Rounds of lines, which threads answer.

use crate::answers::lines::answer_lines;
use crate::answers::shaper::{LineShaper, LineState};
use crate::command::opentype::OpenTypeShaper;
use crate::host::Host;
use crate::host::io::BufRead;
use crate::kept::kept_line::KeptLine;
use crate::lines::errors::LinesError;
use crate::lines::reading::{Reading, read_run};
use crate::memory::{AllocError, Vec};
use crate::ot_shape::FaceNames;
use std::io::{self, Write};
use std::slice::IterMut;
use std::sync::{Mutex, PoisonError};
use std::thread;

/// How many bytes of lines a round has for each thread, or a few more, and how many pieces.
const BYTES: usize = 1 << 16;
const PIECES: usize = 16;

/// How the lines of a text were shaped.
#[derive(Clone, Copy)]
pub(super) struct Shaped {
    /// Whether each was.
    pub(super) all: bool,
    /// Whether the shaping of one was given up.
    pub(super) has_given_up: bool,
}

/// Threads that answer lines, each with what it keeps of the line before.
pub(super) struct Rounds<'a> {
    shaper: LineShaper<'a>,
    states: Vec<LineState<'a, FaceNames<'a>, OpenTypeShaper>>,
}

impl<'a> Rounds<'a> {
    /// This many threads.
    pub(super) fn new(shaper: LineShaper<'a>, jobs: usize) -> Result<Self, AllocError> {
        let mut states = Vec::with_capacity(jobs)?;
        for _ in 0..jobs {
            let (names, kept) = (FaceNames::new(shaper.face)?, KeptLine::new());
            let advances = shaper.advances();
            states.push(LineState {
                texts: OpenTypeShaper::new(),
                names,
                kept,
                advances,
            })?;
        }
        Ok(Rounds { shaper, states })
    }

    /// Answers each line of a text with a line.
    pub(super) fn answer_all(
        mut self,
        reader: &mut impl BufRead,
        output: &mut impl Write,
    ) -> Result<Shaped, LinesError> {
        let (mut lines, mut all) = (Vec::new(), true);
        loop {
            let read = read_round(
                reader,
                self.shaper.reading,
                self.states.len() * BYTES,
                &mut lines,
            );
            for piece in self.answered(&lines)? {
                let Answers(text) = &piece.answers;
                output.write_all(text).map_err(LinesError::Write)?;
                all &= piece.outcome?;
            }
            read?;
            if lines.is_empty() {
                let has_given_up = self.states.iter().any(|state| state.kept.has_given_up);
                return Ok(Shaped { all, has_given_up });
            }
        }
    }

    /// The pieces of a round, with their answers.
    fn answered<'t>(&mut self, lines: &'t [u8]) -> Result<Vec<Piece<'t>>, AllocError> {
        let mut pieces = pieces_of(lines, self.states.len() * PIECES)?;
        let (shaper, busy) = (self.shaper, self.states.len().min(pieces.len()));
        let rest = Mutex::new(pieces.iter_mut());
        thread::scope(|threads| {
            let mut states = self.states.iter_mut().take(busy);
            let own = states.next();
            for state in states {
                let work = || answer_pieces(shaper, state, &rest);
                // Where no thread is to be had, those that run do its work.
                let _ = thread::Builder::new().spawn_scoped(threads, work);
            }
            if let Some(state) = own {
                answer_pieces(shaper, state, &rest);
            }
        });
        Ok(pieces)
    }
}

/// Whole lines of a round, and what came of them.
struct Piece<'t> {
    lines: &'t [u8],
    answers: Answers,
    outcome: Result<bool, LinesError>,
}

/// Answers that wait for those before them.
struct Answers(Vec<u8>);

impl Write for Answers {
    fn write(&mut self, bytes: &[u8]) -> io::Result<usize> {
        self.0.extend_from_slice(bytes)?;
        Ok(bytes.len())
    }

    fn flush(&mut self) -> io::Result<()> {
        Ok(())
    }
}

/// Reads lines in the place of those that are held, until these are so many bytes, or more by less than a line. After an error those
/// before it are held.
fn read_round(
    reader: &mut impl BufRead,
    reading: Reading,
    bytes: usize,
    lines: &mut Vec<u8>,
) -> Result<(), LinesError> {
    lines.clear();
    let mut held = 0;
    while held < bytes {
        match read_run(reader, reading, lines) {
            Ok(true) if !lines.ends_with(b"\n") => {}
            Ok(true) => held = lines.len(),
            Ok(false) => break,
            Err(error) => {
                lines.truncate(held);
                return Err(error);
            }
        }
    }
    Ok(())
}

/// Lines in about so many pieces.
fn pieces_of(mut lines: &[u8], pieces: usize) -> Result<Vec<Piece<'_>>, AllocError> {
    let (least, mut cut) = (lines.len() / pieces, Vec::new());
    while !lines.is_empty() {
        let behind = lines.iter().skip(least).position(|&byte| byte == b'\n');
        let (piece, rest) = lines.split_at(behind.map_or(lines.len(), |at| least + at + 1));
        cut.push(Piece {
            lines: piece,
            answers: Answers(Vec::new()),
            outcome: Ok(true),
        })?;
        lines = rest;
    }
    Ok(cut)
}

/// Answers pieces until none is left.
fn answer_pieces(
    shaper: LineShaper<'_>,
    state: &mut LineState<'_, FaceNames<'_>, OpenTypeShaper>,
    rest: &Mutex<IterMut<'_, Piece<'_>>>,
) {
    let next = || rest.lock().unwrap_or_else(PoisonError::into_inner).next();
    while let Some(piece) = next() {
        piece.outcome = answer_lines(&Host, &shaper, state, &mut piece.lines, &mut piece.answers);
        if let Err(LinesError::Write(_)) = piece.outcome {
            piece.outcome = Err(LinesError::Memory);
        }
    }
}
