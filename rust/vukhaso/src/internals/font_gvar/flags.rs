// Written by tools/plain_rust from crates/font_gvar. Do not edit.

//! Flags of 16 bits.

/// Whether a flag is among others.
pub(crate) fn has_flag(flags: u16, flag: u16) -> bool {
    flags & flag != 0
}
