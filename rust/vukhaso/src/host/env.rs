//! The words of the command line.

use super::Env;
use crate::memory::String;

/// The words, of which the first is the name of the program.
pub(crate) fn args<E: Env>(rt: &E) -> std::io::Result<std::vec::IntoIter<String>> {
    rt.words()
}
