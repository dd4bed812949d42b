// Written by tools/plain_rust from crates/script_universal. Do not edit.

//! The machine that finds syllables of the universal shaper.

mod table;

use crate::script_syllables::Machine;

/// The machine of the universal shaper, which reads the numbers of a `UniversalCategory`.
///
/// # Proved
///
/// That it returns.
#[inline]
pub fn universal_machine() -> Machine<'static> {
    Machine {
        next: &table::NEXT,
        width: table::WIDTH,
        ends: &table::ENDS,
        other: table::OTHER,
    }
}
