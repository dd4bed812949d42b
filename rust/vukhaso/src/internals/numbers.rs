//! Conversions of numbers that have a name in Rattle's std, and what core, or an older Rust, does not have.

mod chunks;

pub use chunks::Chunks;

/// The nearest number, and of two as near the even one.
#[inline]
pub fn nearest_i64_to_f32(number: i64) -> f32 {
    number as f32
}

/// The nearest number, and of two as near the even one.
#[inline]
pub fn nearest_i64_to_f64(number: i64) -> f64 {
    number as f64
}

/// The nearest number of 32 bits, and of two as near the even one.
#[inline]
pub fn nearest_f64_to_f32_with_nan(number: f64) -> f32 {
    number as f32
}

/// The number without its fraction: the least or the largest where it is past them, and 0 where it is none.
#[inline]
pub fn saturating_f32_to_i32(number: f32) -> i32 {
    number as i32
}

/// The number without its fraction: the least or the largest where it is past them, and 0 where it is none.
#[inline]
pub fn saturating_f64_to_i32(number: f64) -> i32 {
    number as i32
}

/// Numbers without a sign, as numbers with one. Rust has it as `cast_signed` since 1.87.
pub trait ToSigned {
    /// The numbers with a sign.
    type Signed;

    /// The number with a sign that has the same bits.
    fn to_signed(self) -> Self::Signed;
}

/// Numbers with a sign, as numbers without one. Rust has it as `cast_unsigned` since 1.87.
pub trait ToUnsigned {
    /// The numbers without a sign.
    type Unsigned;

    /// The number without a sign that has the same bits.
    fn to_unsigned(self) -> Self::Unsigned;
}

macro_rules! same_bits {
    ($($unsigned:ident $signed:ident),*) => {
        $(
            impl ToSigned for $unsigned {
                type Signed = $signed;

                #[inline(always)]
                fn to_signed(self) -> $signed {
                    self as $signed
                }
            }

            impl ToUnsigned for $signed {
                type Unsigned = $unsigned;

                #[inline(always)]
                fn to_unsigned(self) -> $unsigned {
                    self as $unsigned
                }
            }
        )*
    };
}

same_bits!(u8 i8, u16 i16, u32 i32);

/// Numbers that are rounded.
pub trait Round {
    /// The nearest whole number, and of two as near the one further from 0.
    fn round(self) -> Self;

    /// The greatest whole number that is not above it.
    fn floor(self) -> Self;

    /// The least whole number that is not below it.
    fn ceil(self) -> Self;
}

impl Round for f32 {
    fn round(self) -> f32 {
        if is_whole(self) {
            return self;
        }
        let whole = self as i32 as f32;
        let rest = self - whole;
        let rounded = if rest.abs() >= 0.5 {
            whole + 1f32.copysign(self)
        } else {
            whole
        };
        rounded.copysign(self)
    }

    fn floor(self) -> f32 {
        if is_whole(self) {
            return self;
        }
        let whole = self as i32 as f32;
        let below = if whole > self { whole - 1. } else { whole };
        below.copysign(self)
    }

    fn ceil(self) -> f32 {
        -Round::floor(-self)
    }
}

impl Round for f64 {
    fn round(self) -> f64 {
        if is_whole_64(self) {
            return self;
        }
        let whole = self as i64 as f64;
        let rest = self - whole;
        let rounded = if rest.abs() >= 0.5 {
            whole + 1f64.copysign(self)
        } else {
            whole
        };
        rounded.copysign(self)
    }

    fn floor(self) -> f64 {
        if is_whole_64(self) {
            return self;
        }
        let whole = self as i64 as f64;
        let below = if whole > self { whole - 1. } else { whole };
        below.copysign(self)
    }

    fn ceil(self) -> f64 {
        -Round::floor(-self)
    }
}

/// From 2^52 on each number is whole.
fn is_whole_64(number: f64) -> bool {
    number.is_nan() || number.abs() >= 4_503_599_627_370_496.0
}

/// From 2^23 on each number is whole.
fn is_whole(number: f32) -> bool {
    number.is_nan() || number.abs() >= 8_388_608.0
}
