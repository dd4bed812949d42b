// Written by tools/plain_rust from crates/rb_common. Do not edit.

//! The direction in which a line of text runs: the values, that of a script, and HarfBuzz's names.

use crate::common::script::{self, Script};
use core::str::FromStr;

/// The way in which a line of text runs.
#[derive(Clone, Copy, PartialEq, Eq, Hash, Debug)]
pub enum Direction {
    /// Not known yet.
    Invalid,
    /// A horizontal line from left to right.
    LeftToRight,
    /// A horizontal line from right to left.
    RightToLeft,
    /// A vertical line from top to bottom.
    TopToBottom,
    /// A vertical line from bottom to top.
    BottomToTop,
}

impl Direction {
    /// Whether lines are horizontal: from left to right or from right to left.
    ///
    /// # Proved
    ///
    /// ```text
    /// ensures { result ≡ is_horizontal self }
    /// ```
    #[inline]
    pub fn is_horizontal(self) -> bool {
        matches!(self, Direction::LeftToRight | Direction::RightToLeft)
    }

    /// The negation of [`Direction::is_horizontal`], so also true of [`Direction::Invalid`], as in
    /// rustybuzz.
    ///
    /// # Proved
    ///
    /// ```text
    /// ensures { result ≡ not (is_horizontal self) }
    /// ```
    #[inline]
    pub fn is_vertical(self) -> bool {
        !self.is_horizontal()
    }

    /// Whether the text runs forward, as HarfBuzz says it: from left to right or from top to bottom.
    ///
    /// # Proved
    ///
    /// ```text
    /// ensures { result ≡ is_forward self }
    /// ```
    #[inline]
    pub fn is_forward(self) -> bool {
        matches!(self, Direction::LeftToRight | Direction::TopToBottom)
    }

    /// The negation of [`Direction::is_forward`], so also true of [`Direction::Invalid`], as in rustybuzz.
    ///
    /// # Proved
    ///
    /// ```text
    /// ensures { result ≡ not (is_forward self) }
    /// ```
    #[inline]
    pub fn is_backward(self) -> bool {
        !self.is_forward()
    }

    /// The opposite way along the same line; [`Direction::Invalid`] stays.
    ///
    /// # Proved
    ///
    /// ```text
    /// ensures { result ≡ reverse self }
    /// ```
    #[inline]
    pub fn reverse(self) -> Self {
        match self {
            Self::Invalid => Self::Invalid,
            Self::LeftToRight => Self::RightToLeft,
            Self::RightToLeft => Self::LeftToRight,
            Self::TopToBottom => Self::BottomToTop,
            Self::BottomToTop => Self::TopToBottom,
        }
    }

    /// The horizontal direction of a script, as rustybuzz's table of scripts gives it, with Garay from left
    /// to right. It is `None` for the scripts that are written either way: Old Hungarian, Old Italic, Runic
    /// and Tifinagh.
    ///
    /// # Proved
    ///
    /// ```text
    /// ensures { result ≡ direction_of script }
    /// ```
    pub fn from_script(script: Script) -> Option<Self> {
        match script {
            script::ARABIC
            | script::HEBREW
            | script::SYRIAC
            | script::THAANA
            | script::CYPRIOT
            | script::KHAROSHTHI
            | script::PHOENICIAN
            | script::NKO
            | script::LYDIAN
            | script::AVESTAN
            | script::IMPERIAL_ARAMAIC
            | script::INSCRIPTIONAL_PAHLAVI
            | script::INSCRIPTIONAL_PARTHIAN
            | script::OLD_SOUTH_ARABIAN
            | script::OLD_TURKIC
            | script::SAMARITAN
            | script::MANDAIC
            | script::MEROITIC_CURSIVE
            | script::MEROITIC_HIEROGLYPHS
            | script::MANICHAEAN
            | script::MENDE_KIKAKUI
            | script::NABATAEAN
            | script::OLD_NORTH_ARABIAN
            | script::PALMYRENE
            | script::PSALTER_PAHLAVI
            | script::HATRAN
            | script::ADLAM
            | script::HANIFI_ROHINGYA
            | script::OLD_SOGDIAN
            | script::SOGDIAN
            | script::ELYMAIC
            | script::CHORASMIAN
            | script::YEZIDI
            | script::OLD_UYGHUR => Some(Direction::RightToLeft),
            script::OLD_HUNGARIAN | script::OLD_ITALIC | script::RUNIC | script::TIFINAGH => None,
            _ => Some(Direction::LeftToRight),
        }
    }
}

///
/// # Proved
///
/// ```text
/// ghost is_default = { λ direction. direction ≡ Invalid }
/// ```
impl Default for Direction {
    /// [`Direction::Invalid`].
    fn default() -> Self {
        Direction::Invalid
    }
}

///
/// # Proved
///
/// ```text
/// ghost from_str_gives = { λ text r. Answers (direction_of_text text) (codes "invalid direction") r }
/// ```
impl FromStr for Direction {
    type Err = &'static str;

    /// The direction that the first letter names, in either case: `l`, `r`, `t` or `b`, as in HarfBuzz's
    /// `ltr`, `rtl`, `ttb` and `btt`. The letters behind it are not read.
    ///
    /// # Errors
    ///
    /// Any other text is refused with `invalid direction`.
    fn from_str(text: &str) -> Result<Direction, &'static str> {
        match text.as_bytes().first() {
            Some(b'l' | b'L') => Ok(Direction::LeftToRight),
            Some(b'r' | b'R') => Ok(Direction::RightToLeft),
            Some(b't' | b'T') => Ok(Direction::TopToBottom),
            Some(b'b' | b'B') => Ok(Direction::BottomToTop),
            _ => Err("invalid direction"),
        }
    }
}
