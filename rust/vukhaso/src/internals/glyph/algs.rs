// Written by tools/plain_rust from crates/rb_glyph. Do not edit.

//! Words with named bits, after HarfBuzz's macros `FLAG`, `FLAG_RANGE` and their kin.

/// The word whose only bit is bit `x`, which is below 32.
///
/// # Requires
///
/// - `x < 32`
///
/// # Proved
///
/// ```text
/// ensures { result ≡ 2 ^ x }
/// ```
#[inline]
pub const fn rb_flag(x: u32) -> u32 {
    debug_assert!(x < 32);
    1u32 << x
}

/// The word whose only bit is bit `x`, and 0 where a word of 32 bits has no such bit.
///
/// # Proved
///
/// ```text
/// ensures { result ≡ (if nat_lt x 32 then 2 ^ x else 0) }
/// ```
#[inline]
pub fn rb_flag_unsafe(x: u32) -> u32 {
    if x < 32 { rb_flag(x) } else { 0 }
}

/// The word with the bits from `x` to `y`, both included and below 32.
///
/// # Requires
///
/// - `order: x ≤ y`
/// - `width: y < 32`
///
/// # Proved
///
/// ```text
/// ensures value { result ≡ 2 ^ (y + 1) - 2 ^ x }
/// ensures bits { (k : ℕ) → (bit_at result k ≡ 1) ↔ ((x ≤ k) × (k ≤ y)) }
/// ```
#[inline]
pub fn rb_flag_range(x: u32, y: u32) -> u32 {
    debug_assert!(x <= y);
    debug_assert!(y < 32);
    (rb_flag64(y + 1) - rb_flag64(x)) as u32
}

/// The word of 64 bits whose only bit is bit `x`, which is below 64.
///
/// # Requires
///
/// - `x < 64`
///
/// # Proved
///
/// ```text
/// ensures { result ≡ 2 ^ x }
/// ```
#[inline]
pub const fn rb_flag64(x: u32) -> u64 {
    debug_assert!(x < 64);
    1u64 << x
}

/// The word of 64 bits whose only bit is bit `x`, and 0 where it has no such bit.
///
/// # Proved
///
/// ```text
/// ensures { result ≡ (if nat_lt x 64 then 2 ^ x else 0) }
/// ```
#[inline]
pub fn rb_flag64_unsafe(x: u32) -> u64 {
    if x < 64 { rb_flag64(x) } else { 0 }
}
