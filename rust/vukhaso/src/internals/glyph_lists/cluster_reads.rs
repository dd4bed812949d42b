// Written by tools/plain_rust from crates/glyph_lists. Do not edit.

//! Clusters that are read one at a time, and counted.

use crate::glyph::hb_glyph_info_t;

/// Two lists of glyphs as one, whose clusters are read one at a time and counted. A walk that is given this and not the
/// lists shows by its contract how much of them it reads.
///
/// # Proved
///
/// ```text
/// ghost Value = { Reads }
/// ghost view = { λ r. record { out = r.out.now; input = r.input.now; reads = r.reads } }
/// ```
#[derive(Debug)]
pub struct ClusterReads<'a> {
    out: &'a [hb_glyph_info_t],
    input: &'a [hb_glyph_info_t],
    reads: u128,
}

impl<'a> ClusterReads<'a> {
    /// The two lists as one, `out` first. No cluster is read yet.
    ///
    /// # Proved
    ///
    /// ```text
    /// ensures { result ≡ record { out = out.now; input = input.now; reads = 0 } }
    /// ```
    #[inline(always)]
    pub fn new(out: &'a [hb_glyph_info_t], input: &'a [hb_glyph_info_t]) -> Self {
        ClusterReads {
            out,
            input,
            reads: 0,
        }
    }

    /// Reads the cluster of glyph `i` of the two lists as one.
    ///
    /// # Requires
    ///
    /// - `within: i < length self.old.out + length self.old.input`
    /// - `room: self.old.reads < 2 ^ 128 - 1`
    ///
    /// # Proved
    ///
    /// ```text
    /// ensures is { result ≡ slice_index (both_clusters self.old) i }
    /// ensures counts { self.new ≡ record self.old { reads = self.old.reads + 1 } }
    /// ```
    #[inline(always)]
    pub fn cluster(&mut self, i: usize) -> u32 {
        self.reads += 1;
        if i < self.out.len() {
            return self.out[i].cluster;
        }
        self.input[i - self.out.len()].cluster
    }

    /// How many glyphs the two lists have together.
    ///
    /// # Proved
    ///
    /// ```text
    /// ensures { result ≡ length self.now.out + length self.now.input }
    /// ```
    #[inline(always)]
    pub fn len(&self) -> usize {
        self.out.len() + self.input.len()
    }

    /// How many clusters were read.
    ///
    /// # Proved
    ///
    /// ```text
    /// ensures { result ≡ self.now.reads }
    /// ```
    #[inline(always)]
    pub fn reads(&self) -> u128 {
        self.reads
    }
}
