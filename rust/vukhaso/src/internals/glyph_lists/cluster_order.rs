// Written by tools/plain_rust from crates/glyph_lists. Do not edit.

//! The order in which the clusters of a list stand.

/// The order in which the clusters of a list stand, by its cluster level.
#[derive(Clone, Copy, PartialEq, Eq, Debug)]
pub enum ClusterOrder {
    /// They never fall, or they never rise: a merge merges, and a scan goes by the clusters at the ends.
    Monotone,
    /// Any: a merge marks glyphs instead, and a scan reads every cluster.
    Any,
}

impl ClusterOrder {
    /// Whether they may stand in any order.
    ///
    /// # Proved
    ///
    /// ```text
    /// ensures { result ≡ is_any self }
    /// ```
    #[inline(always)]
    pub fn is_any(self) -> bool {
        matches!(self, ClusterOrder::Any)
    }
}
