// Written by tools/plain_rust from crates/script_universal. Do not edit.

//! How a Myanmar text is shaped.

use crate::script_syllables::Machine;
use crate::script_universal::myanmar::machine::myanmar_machine;
use crate::script_universal::pauses::ReorderingShaper;

/// How a Myanmar text is shaped, by any font.
#[derive(Clone, Copy, PartialEq, Eq, Debug)]
pub struct MyanmarShaper;

impl ReorderingShaper for MyanmarShaper {
    fn machine(&self) -> Machine<'static> {
        myanmar_machine()
    }
}
