//! Bytes of a table that are read one after the other.

#[derive(Clone, Copy)]
pub struct Reader<'a>(pub &'a [u8]);

impl<'a> Reader<'a> {
    pub fn is_empty(&self) -> bool {
        self.0.is_empty()
    }

    /// So many bytes; `None` where there are fewer.
    pub fn take(&mut self, count: usize) -> Option<&'a [u8]> {
        let (front, rest) = self.0.split_at_checked(count)?;
        self.0 = rest;
        Some(front)
    }

    /// A number of so many bytes, without a sign.
    pub fn number(&mut self, size: usize) -> Option<u32> {
        Some(self.take(size)?.iter().fold(0, |number, byte| number << 8 | u32::from(*byte)))
    }

    pub fn u8(&mut self) -> Option<u8> {
        Some(self.take(1)?[0])
    }

    pub fn i8(&mut self) -> Option<i8> {
        Some(self.u8()?.cast_signed())
    }

    pub fn u16(&mut self) -> Option<u16> {
        Some(self.number(2)? as u16)
    }

    pub fn i16(&mut self) -> Option<i16> {
        Some(self.u16()?.cast_signed())
    }

    pub fn i32(&mut self) -> Option<i32> {
        Some(self.number(4)?.cast_signed())
    }
}
