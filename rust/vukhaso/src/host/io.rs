//! Reading and writing, where memory may run out.

use super::Print;
use crate::memory::{AllocError, Vec};
use std::io::Stdout;

pub(crate) use std::io::{BufWriter as StdWriter, Error, ErrorKind, Result, Write};

/// How many bytes are read at once.
const PIECE: usize = 1 << 16;

impl From<AllocError> for Error {
    fn from(_: AllocError) -> Self {
        Error::from(ErrorKind::OutOfMemory)
    }
}

/// What is read to its end.
pub trait Read {
    /// Adds all bytes that are left, and says how many they are.
    fn read_to_end(&mut self, bytes: &mut Vec<u8>) -> Result<usize>;
}

impl<R: std::io::Read> Read for R {
    fn read_to_end(&mut self, bytes: &mut Vec<u8>) -> Result<usize> {
        let before = bytes.len();
        let mut piece = Vec::from_elem(0, PIECE)?;
        loop {
            match self.read(&mut piece) {
                Ok(0) => return Ok(bytes.len() - before),
                Ok(len) => bytes.extend_from_slice(&piece[..len])?,
                Err(error) if error.kind() == ErrorKind::Interrupted => {}
                Err(error) => return Err(error),
            }
        }
    }
}

/// What is read line by line.
pub trait BufRead: Read {
    /// Adds the bytes up to the next such byte, and that byte. It says how many they are: 0 at the end.
    fn read_until(&mut self, end: u8, bytes: &mut Vec<u8>) -> Result<usize>;
}

impl<R: std::io::BufRead> BufRead for R {
    fn read_until(&mut self, end: u8, bytes: &mut Vec<u8>) -> Result<usize> {
        let before = bytes.len();
        loop {
            let piece = match self.fill_buf() {
                Ok(piece) => piece,
                Err(error) if error.kind() == ErrorKind::Interrupted => continue,
                Err(error) => return Err(error),
            };
            let found = piece.iter().position(|&byte| byte == end);
            let len = found.map_or(piece.len(), |at| at + 1);
            bytes.extend_from_slice(&piece[..len])?;
            self.consume(len);
            if found.is_some() || len == 0 {
                return Ok(bytes.len() - before);
            }
        }
    }
}

/// A reader with a piece of what it reads.
#[derive(Debug)]
pub(crate) struct BufReader<R>(std::io::BufReader<R>);

impl<R: std::io::Read> BufReader<R> {
    /// A reader of this one.
    pub(crate) fn new(reader: R) -> Result<Self> {
        Ok(BufReader(std::io::BufReader::with_capacity(PIECE, reader)))
    }
}

impl<R: std::io::Read> std::io::Read for BufReader<R> {
    fn read(&mut self, bytes: &mut [u8]) -> Result<usize> {
        self.0.read(bytes)
    }
}

impl<R: std::io::Read> std::io::BufRead for BufReader<R> {
    fn fill_buf(&mut self) -> Result<&[u8]> {
        self.0.fill_buf()
    }

    fn consume(&mut self, amount: usize) {
        self.0.consume(amount);
    }
}

/// A writer that holds what is written until there is a piece of it.
#[derive(Debug)]
pub(crate) struct BufWriter<W: Write>(StdWriter<W>);

impl<W: Write> BufWriter<W> {
    /// A writer to this one.
    pub(crate) fn new(writer: W) -> Result<Self> {
        Ok(BufWriter(StdWriter::with_capacity(PIECE, writer)))
    }
}

impl<W: Write> Write for BufWriter<W> {
    fn write(&mut self, bytes: &[u8]) -> Result<usize> {
        self.0.write(bytes)
    }

    fn flush(&mut self) -> Result<()> {
        self.0.flush()
    }
}

/// What writes to standard output.
pub(crate) fn writer<P: Print>(rt: &P) -> Stdout {
    rt.writer()
}
