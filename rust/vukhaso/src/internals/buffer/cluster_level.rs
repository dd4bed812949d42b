// Written by tools/plain_rust from crates/shaping_buffer. Do not edit.

//! How far clusters are merged.

/// A cluster level as a number, after HarfBuzz's `hb_buffer_cluster_level_t`. Any number except those below acts as
/// [`HB_BUFFER_CLUSTER_LEVEL_MONOTONE_GRAPHEMES`].
pub type hb_buffer_cluster_level_t = u32;

/// Merges change clusters. A shaper that stands above first makes the characters of a grapheme one cluster; no call
/// here does.
pub const HB_BUFFER_CLUSTER_LEVEL_MONOTONE_GRAPHEMES: hb_buffer_cluster_level_t = 0;

/// Merges change clusters. A shaper that stands above leaves each character in its own cluster.
pub const HB_BUFFER_CLUSTER_LEVEL_MONOTONE_CHARACTERS: hb_buffer_cluster_level_t = 1;

/// Merges mark glyphs as unsafe to break instead, and clusters may stand in any order. A deletion may still hand its
/// cluster on.
pub const HB_BUFFER_CLUSTER_LEVEL_CHARACTERS: hb_buffer_cluster_level_t = 2;

/// As [`HB_BUFFER_CLUSTER_LEVEL_CHARACTERS`], except that `merge_grapheme_clusters` makes a grapheme one cluster.
pub const HB_BUFFER_CLUSTER_LEVEL_GRAPHEMES: hb_buffer_cluster_level_t = 3;

/// The level of a new buffer.
pub const HB_BUFFER_CLUSTER_LEVEL_DEFAULT: hb_buffer_cluster_level_t =
    HB_BUFFER_CLUSTER_LEVEL_MONOTONE_GRAPHEMES;

/// How far clusters are merged, by name.
#[derive(Clone, Copy, PartialEq, Eq, Hash, Debug)]
pub enum BufferClusterLevel {
    /// Merges change clusters. A shaper that stands above first makes the characters of a grapheme one cluster; no
    /// call here does.
    MonotoneGraphemes,
    /// Merges change clusters. A shaper that stands above leaves each character in its own cluster.
    MonotoneCharacters,
    /// Merges mark glyphs as unsafe to break instead, and clusters may stand in any order. A deletion may still hand
    /// its cluster on.
    Characters,
    /// As `Characters`, except that `merge_grapheme_clusters` makes a grapheme one cluster.
    Graphemes,
}

///
/// # Proved
///
/// ```text
/// ghost is_default = { λ level. level ≡ MonotoneGraphemes }
/// ```
impl Default for BufferClusterLevel {
    /// The level of a new buffer, [`BufferClusterLevel::MonotoneGraphemes`].
    fn default() -> Self {
        BufferClusterLevel::MonotoneGraphemes
    }
}

impl BufferClusterLevel {
    /// The number of the level, as the buffer's field `cluster_level` has it.
    ///
    /// # Proved
    ///
    /// ```text
    /// ensures { result ≡ level_of self }
    /// ```
    #[inline]
    pub fn number(self) -> hb_buffer_cluster_level_t {
        match self {
            BufferClusterLevel::MonotoneGraphemes => HB_BUFFER_CLUSTER_LEVEL_MONOTONE_GRAPHEMES,
            BufferClusterLevel::MonotoneCharacters => HB_BUFFER_CLUSTER_LEVEL_MONOTONE_CHARACTERS,
            BufferClusterLevel::Characters => HB_BUFFER_CLUSTER_LEVEL_CHARACTERS,
            BufferClusterLevel::Graphemes => HB_BUFFER_CLUSTER_LEVEL_GRAPHEMES,
        }
    }

    /// The level of a number, `MonotoneGraphemes` for any number except 1, 2 and 3.
    ///
    /// # Proved
    ///
    /// ```text
    /// ensures { result ≡ named_level number }
    /// ```
    #[inline]
    pub fn of_number(number: hb_buffer_cluster_level_t) -> Self {
        match number {
            HB_BUFFER_CLUSTER_LEVEL_MONOTONE_CHARACTERS => BufferClusterLevel::MonotoneCharacters,
            HB_BUFFER_CLUSTER_LEVEL_CHARACTERS => BufferClusterLevel::Characters,
            HB_BUFFER_CLUSTER_LEVEL_GRAPHEMES => BufferClusterLevel::Graphemes,
            _ => BufferClusterLevel::MonotoneGraphemes,
        }
    }
}
