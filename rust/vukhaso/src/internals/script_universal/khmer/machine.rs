// Written by tools/plain_rust from crates/script_universal. Do not edit.

//! The machine that finds syllables of Khmer.

mod table;

use crate::script_syllables::Machine;

/// The machine of Khmer, which reads the numbers of a `Category`.
///
/// # Proved
///
/// That it returns.
#[inline]
pub fn khmer_machine() -> Machine<'static> {
    Machine {
        next: &table::NEXT,
        width: table::WIDTH,
        ends: &table::ENDS,
        other: table::OTHER,
    }
}
