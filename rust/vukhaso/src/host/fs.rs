//! Files.

use super::Files;
use super::io::Read;
use crate::memory::Vec;

/// A file that is read piece by piece.
pub(crate) fn open<F: Files>(rt: &F, path: &str) -> std::io::Result<F::File> {
    rt.open(path)
}

/// A file that is written.
pub(crate) fn create<F: Files>(rt: &F, path: &str) -> std::io::Result<F::File> {
    rt.create(path)
}

/// The bytes of a file.
pub(crate) fn read<F: Files>(rt: &F, path: &str) -> std::io::Result<Vec<u8>> {
    let mut bytes = Vec::new();
    let _len = rt.open(path)?.read_to_end(&mut bytes)?;
    Ok(bytes)
}
