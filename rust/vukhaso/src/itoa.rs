//! Decimal digits of numbers, in the place of the crate of this name.

/// How many bytes a number has at most, with its sign.
const MOST: usize = 40;

/// A number that has a text of decimal digits.
pub trait Integer: Copy {
    /// Whether it is below 0, and its size.
    fn parts(self) -> (bool, u128);
}

macro_rules! integers {
    ($($kind:ty)*) => {
        $(impl Integer for $kind {
            #[inline]
            fn parts(self) -> (bool, u128) {
                #[allow(unused_comparisons)]
                (self < 0, (self as i128).unsigned_abs())
            }
        })*
    };
}

integers!(u8 u16 u32 u64 usize i8 i16 i32 i64 i128 isize);

/// Room for the text of one number.
pub struct Buffer {
    bytes: [u8; MOST],
}

impl Buffer {
    /// Room for a text.
    #[inline]
    pub fn new() -> Self {
        Buffer {
            bytes: [b'0'; MOST],
        }
    }

    /// The text of a number.
    #[inline]
    pub fn format<I: Integer>(&mut self, number: I) -> &str {
        let (negative, size) = number.parts();
        let mut start = match u64::try_from(size) {
            Ok(size) => write_digits(size, &mut self.bytes, MOST),
            Err(_) => write_long(size, &mut self.bytes),
        };
        if negative {
            start -= 1;
            self.bytes[start] = b'-';
        }
        core::str::from_utf8(&self.bytes[start..]).unwrap_or_default()
    }
}

/// Writes the digits of a number of more than 64 bits at the end, and gives their start.
#[cold]
fn write_long(mut size: u128, bytes: &mut [u8; MOST]) -> usize {
    let mut start = MOST;
    while size > 0 {
        start -= 1;
        bytes[start] = b'0' + (size % 10) as u8;
        size /= 10;
    }
    start
}

/// Writes the digits of a number so that they end at a place, and gives their start.
#[inline]
pub fn write_digits(number: u64, bytes: &mut [u8], end: usize) -> usize {
    let (mut rest, mut start) = (number, end);
    loop {
        start -= 1;
        bytes[start] = b'0' + (rest % 10) as u8;
        rest /= 10;
        if rest == 0 {
            return start;
        }
    }
}
