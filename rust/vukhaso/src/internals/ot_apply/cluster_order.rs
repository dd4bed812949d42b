// Written by tools/plain_rust from crates/ot_apply. Do not edit.

//! The order of clusters, where the glyphs of syllables are put in another order in between.

use crate::buffer::{hb_buffer_t, hb_glyph_info_t};
use crate::glyph_lists::clusters::set_cluster;
use crate::script_items::allows_any_order;

/// How the clusters of a text run.
#[derive(Clone, Copy, PartialEq, Eq, Debug)]
pub(crate) enum ClusterCourse {
    /// They never fall.
    Rising,
    /// They never rise.
    Falling,
    /// They do both, or may do so.
    Neither,
}

impl ClusterCourse {
    /// How the clusters of a buffer run.
    ///
    /// # Requires
    ///
    /// - `buffer.now.have_output ≡ false`
    pub(crate) fn of(buffer: &hb_buffer_t) -> ClusterCourse {
        debug_assert!(!buffer.have_output());
        debug_assert!(buffer.out_len() == 0);
        if allows_any_order(buffer) {
            ClusterCourse::Neither
        } else {
            course_of(buffer.info())
        }
    }

    /// Puts clusters in order again that ran this way before.
    ///
    /// # Requires
    ///
    /// - `buffer.old.have_output ≡ false`
    pub(crate) fn restore(self, buffer: &mut hb_buffer_t) {
        debug_assert!(!buffer.have_output());
        match self {
            ClusterCourse::Rising => raise(buffer),
            ClusterCourse::Falling => {
                buffer.reverse();
                raise(buffer);
                buffer.reverse();
            }
            ClusterCourse::Neither => {}
        }
    }
}

/// How the clusters of glyphs run.
fn course_of(infos: &[hb_glyph_info_t]) -> ClusterCourse {
    if never_falls(infos) {
        ClusterCourse::Rising
    } else if never_rises(infos) {
        ClusterCourse::Falling
    } else {
        ClusterCourse::Neither
    }
}

/// Whether the clusters of glyphs never fall.
fn never_falls(infos: &[hb_glyph_info_t]) -> bool {
    for place in 1..infos.len() {
        if infos[place].cluster < infos[place - 1].cluster {
            return false;
        }
    }
    true
}

/// Whether the clusters of glyphs never rise.
fn never_rises(infos: &[hb_glyph_info_t]) -> bool {
    for place in 1..infos.len() {
        if infos[place - 1].cluster < infos[place].cluster {
            return false;
        }
    }
    true
}

/// Puts each glyph of a buffer into the least cluster from its place on.
///
/// # Requires
///
/// - `buffer.old.have_output ≡ false`
fn raise(buffer: &mut hb_buffer_t) {
    debug_assert!(!buffer.have_output());
    debug_assert!(buffer.out_len() == 0);
    raise_all(buffer.info_slice_mut());
}

/// Puts each glyph into the least cluster from its place on. One that changes its cluster has then the
/// glyph flags of the glyph behind it. Nothing changes where the clusters never fall.
fn raise_all(infos: &mut [hb_glyph_info_t]) {
    for place in (1..infos.len()).rev() {
        let behind = infos[place];
        let cluster = infos[place - 1].cluster.min(behind.cluster);
        set_cluster(&mut infos[place - 1], cluster, behind.mask);
    }
}
