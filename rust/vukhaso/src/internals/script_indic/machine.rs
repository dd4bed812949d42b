// Written by tools/plain_rust from crates/script_indic. Do not edit.

//! The machine that finds syllables of Indic scripts.

mod table;

use crate::script_syllables::Machine;

/// The machine of Indic scripts, which reads the numbers of a `Category`.
///
/// # Proved
///
/// That it returns.
#[inline]
pub fn indic_machine() -> Machine<'static> {
    Machine {
        next: &table::NEXT,
        width: table::WIDTH,
        ends: &table::ENDS,
        other: table::OTHER,
    }
}
