// Written by tools/plain_rust from crates/font_colors. Do not edit.

//! The strike that is used of a font whose bitmaps have several sizes.

/// Strikes of a font, each for a size in pixels.
///
/// # Proved
///
/// ```text
/// ghost size_of: { Self → ℕ → ℕ }
/// ```
pub trait Strikes {
    /// The size of a strike, in pixels of an em.
    ///
    /// # Proved
    ///
    /// ```text
    /// ensures { result ≡ size_of self.now strike }
    /// ```
    fn size(&self, strike: u32) -> u16;
}

/// The size of a strike that is wanted for an em of so many pixels across and upwards: the greater of
/// both. Where there are no pixels it is greater than that of any strike.
///
/// # Proved
///
/// ```text
/// ensures { result ≡ wanted_size across upwards }
/// ```
#[inline]
pub fn wanted_size(across: u16, upwards: u16) -> u32 {
    let pixels = across.max(upwards);
    if pixels == 0 {
        1073741824
    } else {
        u32::from(pixels)
    }
}

/// Of so many strikes the one that fits a size best: the smallest that is not below it, or else the
/// greatest; 0 where there are none.
///
/// # Proved
///
/// ```text
/// ensures { result ≡ best_strike (S.size_of strikes.now) wanted count }
/// ```
#[inline]
pub fn best_strike<S: Strikes>(strikes: &S, count: u32, wanted: u32) -> u32 {
    let mut best = 0;
    for strike in 0..count {
        if fits_better(wanted, strikes.size(strike), strikes.size(best)) {
            best = strike;
        }
    }
    best
}

/// Whether a size fits better than another.
fn fits_better(wanted: u32, size: u16, other: u16) -> bool {
    if u32::from(other) < wanted {
        other < size
    } else {
        wanted <= u32::from(size) && size < other
    }
}
