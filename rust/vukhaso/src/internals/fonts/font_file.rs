// Written by tools/plain_rust from crates/shape_fonts. Do not edit.

//! The file of a font, which is read once for all command lines in a row that name it.

use crate::host::{AllocGlobal, Files};
use crate::host::{fs, io};
use crate::memory::{String, Vec};

/// The file that was read last. A contract sees its name, if one was read, and its bytes.
///
/// # Proved
///
/// ```text
/// ghost Value = { HeldFile }
/// ghost view = { λ f. record {
///   path = option_map string_bytes f.path;
///   bytes = f.bytes.items;
/// } }
/// ```
#[derive(Debug)]
pub struct FontFile {
    path: Option<String>,
    bytes: Vec<u8>,
}

impl FontFile {
    /// No file.
    ///
    /// # Proved
    ///
    /// ```text
    /// ensures { result ≡ record { path = None; bytes = [] } }
    /// ```
    #[inline]
    pub fn new() -> Self {
        FontFile {
            path: None,
            bytes: Vec::new(),
        }
    }

    /// Reads a file, unless it was read last. `-` is standard input. After an error no file is held.
    ///
    /// # Errors
    ///
    /// `Err`: the clauses below say when.
    ///
    /// # Proved
    ///
    /// ```text
    /// ensures held { OnOk result (self.new.path ≡ Some path.now) }
    /// ensures lost { OnErr result (self.new.path ≡ None) }
    /// ensures kept { self.old.path ≡ Some path.now → self.new ≡ self.old }
    /// ```
    #[inline]
    pub fn read<F: Files + AllocGlobal>(&mut self, rt: &F, path: &str) -> io::Result<()> {
        if !self.is_of(path) {
            self.path = None;
            self.bytes = fs::read(rt, if path == "-" { "/dev/stdin" } else { path })?;
            self.path = Some(String::from_str(path)?);
        }
        Ok(())
    }

    /// The bytes of the file that was read last.
    ///
    /// # Proved
    ///
    /// ```text
    /// ensures { result.now ≡ self.now.bytes }
    /// ```
    #[inline]
    pub fn data(&self) -> &[u8] {
        self.bytes.as_slice()
    }

    /// Its name; the empty text where none was read.
    ///
    /// # Proved
    ///
    /// ```text
    /// ensures { result.now ≡ unwrap_or self.now.path [] }
    /// ```
    #[inline]
    pub fn path(&self) -> &str {
        match &self.path {
            Some(path) => path.as_str(),
            None => "",
        }
    }

    /// Whether this file was read last.
    ///
    /// # Proved
    ///
    /// ```text
    /// ensures { IsTrue result ↔ (self.now.path ≡ Some path.now) }
    /// ```
    #[inline]
    pub fn is_of(&self, path: &str) -> bool {
        match &self.path {
            Some(held) => held.as_str() == path,
            None => false,
        }
    }
}
