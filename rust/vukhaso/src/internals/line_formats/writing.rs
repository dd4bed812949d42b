// Written by tools/plain_rust from crates/line_formats. Do not edit.

//! Bytes and numbers at the end of what is written.

use crate::itoa::{Buffer, Integer};
use crate::memory::{AllocError, Vec};

/// Some bytes.
#[inline(always)]
pub(crate) fn write_bytes(text: &mut Vec<u8>, bytes: &[u8]) -> Result<(), AllocError> {
    text.extend_from_slice(bytes)
}

/// A number, in decimal digits.
#[inline(always)]
pub(crate) fn write_number<I: Integer>(text: &mut Vec<u8>, number: I) -> Result<(), AllocError> {
    let mut digits = Buffer::new();
    text.extend_from_slice(digits.format(number).as_bytes())
}

/// The name of a member of an object, with all that stands before its value, and then a number.
#[inline(always)]
pub(crate) fn write_member<I: Integer>(
    text: &mut Vec<u8>,
    name: &[u8],
    number: I,
) -> Result<(), AllocError> {
    write_bytes(text, name)?;
    write_number(text, number)
}

/// Two members of an object.
#[inline(always)]
pub(crate) fn write_two<I: Integer>(
    text: &mut Vec<u8>,
    name: &[u8],
    number: I,
    other_name: &[u8],
    other: I,
) -> Result<(), AllocError> {
    write_member(text, name, number)?;
    write_member(text, other_name, other)?;
    Ok(())
}
