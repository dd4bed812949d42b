// Written by tools/plain_rust from crates/rb_common. Do not edit.

//! The names of four bytes that OpenType gives.

/// How many bytes a tag has.
pub const TAG_LEN: usize = 4;

/// A name of four bytes, as the OpenType tag registry gives to features, scripts, languages and
/// tables. The number holds the bytes with the first as the most significant. The default is the
/// null tag, whose number is 0.
#[derive(Clone, Copy, PartialEq, Eq, PartialOrd, Ord, Hash, Debug)]
pub struct Tag(pub u32);

impl Tag {
    /// The tag of these four bytes, the first most significant.
    ///
    /// # Proved
    ///
    /// ```text
    /// ensures { result.0 ≡ tag_of bytes.now }
    /// ```
    #[inline]
    pub fn from_bytes(bytes: &[u8; 4]) -> Self {
        Tag(u32::from_be_bytes(*bytes))
    }

    /// The tag of the first four bytes, with spaces after them where there are fewer, as OpenType pads
    /// short tags. No bytes give the null tag.
    ///
    /// # Proved
    ///
    /// ```text
    /// ensures { result.0 ≡ lossy_tag_of bytes.now }
    /// ```
    #[inline]
    pub fn from_bytes_lossy(bytes: &[u8]) -> Self {
        match *bytes {
            [] => Tag(0),
            [a] => Tag::from_bytes(&[a, b' ', b' ', b' ']),
            [a, b] => Tag::from_bytes(&[a, b, b' ', b' ']),
            [a, b, c] => Tag::from_bytes(&[a, b, c, b' ']),
            [a, b, c, d, ..] => Tag::from_bytes(&[a, b, c, d]),
        }
    }

    /// The number of the tag.
    ///
    /// # Proved
    ///
    /// ```text
    /// ensures { result ≡ self.0 }
    /// ```
    #[inline]
    pub fn as_u32(self) -> u32 {
        let Tag(number) = self;
        number
    }

    /// The four bytes of the tag, the most significant first.
    ///
    /// # Proved
    ///
    /// ```text
    /// ensures { result ≡ to_be_bytes w32 self.0 }
    /// ```
    #[inline]
    pub fn to_bytes(self) -> [u8; 4] {
        self.0.to_be_bytes()
    }

    /// Whether this is the null tag.
    ///
    /// # Proved
    ///
    /// ```text
    /// ensures { IsTrue result ↔ (self.0 ≡ 0) }
    /// ```
    #[inline]
    pub fn is_null(self) -> bool {
        self.0 == 0
    }
}

///
/// # Proved
///
/// ```text
/// ghost is_default = { λ tag. tag.0 ≡ 0 }
/// ```
impl Default for Tag {
    /// The null tag.
    fn default() -> Self {
        Tag(0)
    }
}

/// The tags that OpenType layout itself names, and a tag in capitals.
///
/// # Proved
///
/// ```text
/// ghost number: { Self → ℕ }
/// ```
pub trait TagExt {
    /// The script tag `DFLT`, of a font's features for every other script.
    ///
    /// # Proved
    ///
    /// ```text
    /// ensures { number result ≡ tag_of (codes "DFLT") }
    /// ```
    fn default_script() -> Self;

    /// The language tag `dflt`, of a script's features for every other language.
    ///
    /// # Proved
    ///
    /// ```text
    /// ensures { number result ≡ tag_of (codes "dflt") }
    /// ```
    fn default_language() -> Self;

    /// The tag with its ASCII letters made capital.
    ///
    /// # Proved
    ///
    /// ```text
    /// ensures { number result ≡ uppercase_tag (number self.now) }
    /// ```
    fn to_uppercase(&self) -> Self;
}

///
/// # Proved
///
/// ```text
/// ghost number = { λ tag. tag.0 }
/// ```
impl TagExt for Tag {
    fn default_script() -> Self {
        Tag::from_bytes(b"DFLT")
    }

    fn default_language() -> Self {
        Tag::from_bytes(b"dflt")
    }

    fn to_uppercase(&self) -> Self {
        let [a, b, c, d] = self.to_bytes();
        Tag::from_bytes(&[
            a.to_ascii_uppercase(),
            b.to_ascii_uppercase(),
            c.to_ascii_uppercase(),
            d.to_ascii_uppercase(),
        ])
    }
}
