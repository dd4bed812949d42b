// Written by tools/plain_rust from crates/ot_positions. Do not edit.

//! Glyph flags of whole clusters (HarfBuzz, `hb_propagate_flags`).

use crate::buffer::{
    BufferFlags, HB_BUFFER_SCRATCH_FLAG_HAS_GLYPH_FLAGS, glyph_flag, hb_buffer_t, hb_glyph_info_t,
};

/// Gives all glyphs of a cluster the glyph flags that one of them has, if one is unsafe to break: so a
/// glyph that is taken out leaves its own.
///
/// # Requires
///
/// Positions, and that no output is open.
///
/// - `closed: buffer.old.have_output ≡ false`
/// - `placed: IsSome buffer.old.positions`
///
/// # Proved
///
/// ```text
/// ensures is { buffer.new ≡ cluster_flags.share_flags buffer.old }
/// ensures closed { buffer.new.have_output ≡ false }
/// ensures placed { IsSome buffer.new.positions }
/// ensures keeps { KeepsClusters buffer.old buffer.new }
/// ```
#[inline]
pub fn share_flags(buffer: &mut hb_buffer_t) {
    debug_assert!(!buffer.have_output());
    debug_assert!(buffer.have_positions());
    if has_glyph_flags(buffer) {
        share_in(buffer);
    }
}

/// Whether some glyphs have glyph flags.
fn has_glyph_flags(buffer: &hb_buffer_t) -> bool {
    buffer.scratch_flags & HB_BUFFER_SCRATCH_FLAG_HAS_GLYPH_FLAGS != 0
}

/// Shares the glyph flags of each cluster of a buffer.
///
/// # Requires
///
/// - `closed: buffer.old.have_output ≡ false`
/// - `placed: IsSome buffer.old.positions`
fn share_in(buffer: &mut hb_buffer_t) {
    debug_assert!(!buffer.have_output());
    debug_assert!(buffer.have_positions());
    share_all(buffer.info_slice_mut());
}

/// Shares the glyph flags of each cluster.
fn share_all(infos: &mut [hb_glyph_info_t]) {
    let mut start = 0;
    while start < infos.len() {
        let end = cluster_end(infos, start);
        share_from(infos, start, end);
        start = end;
    }
}

/// Gives the glyphs from a place to another one the glyph flags that one of them has, if one is unsafe
/// to break.
///
/// # Requires
///
/// - `order: start ≤ end`
/// - `within: end ≤ length infos.old`
fn share_from(infos: &mut [hb_glyph_info_t], start: usize, end: usize) {
    debug_assert!(start <= end);
    debug_assert!(end <= infos.len());
    let flags = shared_flags(&infos[start..end]);
    add_flags(&mut infos[start..end], flags);
}

/// All glyph flags of some glyphs, if one is unsafe to break.
fn shared_flags(infos: &[hb_glyph_info_t]) -> u32 {
    let flags = all_flags(infos);
    if flags & glyph_flag::UNSAFE_TO_BREAK != 0 {
        flags
    } else {
        0
    }
}

/// Adds glyph flags to those of each glyph.
fn add_flags(infos: &mut [hb_glyph_info_t], flags: u32) {
    for info in infos.iter_mut() {
        add_flags_to(info, flags);
    }
}

/// Adds glyph flags to those of a glyph.
fn add_flags_to(info: &mut hb_glyph_info_t, flags: u32) {
    info.mask |= flags;
}

/// Gives all glyphs of a cluster the same glyph flags, and takes away those that the buffer was not
/// asked for.
///
/// # Requires
///
/// Positions, and that no output is open.
///
/// - `closed: buffer.old.have_output ≡ false`
/// - `placed: IsSome buffer.old.positions`
///
/// # Proved
///
/// ```text
/// ensures is { buffer.new ≡ cluster_flags.propagate_flags buffer.old }
/// ensures closed { buffer.new.have_output ≡ false }
/// ensures placed { IsSome buffer.new.positions }
/// ensures keeps { KeepsClusters buffer.old buffer.new }
/// ```
#[inline]
pub fn propagate_flags(buffer: &mut hb_buffer_t) {
    debug_assert!(!buffer.have_output());
    debug_assert!(buffer.have_positions());
    if has_glyph_flags(buffer) {
        let flags = buffer.flags;
        propagate_in(buffer, flags);
    }
}

/// Gives all glyphs of each cluster of a buffer the same glyph flags.
///
/// # Requires
///
/// - `closed: buffer.old.have_output ≡ false`
/// - `placed: IsSome buffer.old.positions`
fn propagate_in(buffer: &mut hb_buffer_t, flags: BufferFlags) {
    debug_assert!(!buffer.have_output());
    debug_assert!(buffer.have_positions());
    propagate_all(buffer.info_slice_mut(), flags);
}

/// Gives all glyphs of each cluster the same glyph flags.
fn propagate_all(infos: &mut [hb_glyph_info_t], flags: BufferFlags) {
    let mut start = 0;
    while start < infos.len() {
        let end = cluster_end(infos, start);
        propagate_from(infos, start, end, flags);
        start = end;
    }
}

/// Gives the glyphs from a place to another one the same glyph flags.
///
/// # Requires
///
/// - `order: start ≤ end`
/// - `within: end ≤ length infos.old`
#[inline(always)]
fn propagate_from(infos: &mut [hb_glyph_info_t], start: usize, end: usize, flags: BufferFlags) {
    debug_assert!(start <= end);
    debug_assert!(end <= infos.len());
    let mask = flags_of_cluster(all_flags(&infos[start..end]), flags);
    set_masks(&mut infos[start..end], mask);
}

/// All glyph flags of some glyphs.
#[inline(always)]
fn all_flags(infos: &[hb_glyph_info_t]) -> u32 {
    let mut all = 0;
    for info in infos.iter() {
        all = all | info.mask & glyph_flag::DEFINED;
    }
    all
}

/// Gives glyphs this mask.
#[inline(always)]
fn set_masks(infos: &mut [hb_glyph_info_t], mask: u32) {
    for info in infos.iter_mut() {
        info.mask = mask;
    }
}

/// Where the cluster ends whose first glyph is at a place.
///
/// # Requires
///
/// - `start < length infos.now`
#[inline(always)]
fn cluster_end(infos: &[hb_glyph_info_t], start: usize) -> usize {
    debug_assert!(start < infos.len());
    let cluster = cluster_at(infos, start);
    start + 1 + len_of_cluster(&infos[start + 1..], cluster)
}

/// The cluster of the glyph at a place.
///
/// # Requires
///
/// - `place < length infos.now`
#[inline(always)]
fn cluster_at(infos: &[hb_glyph_info_t], place: usize) -> u32 {
    debug_assert!(place < infos.len());
    infos[place].cluster
}

/// How many glyphs at the beginning are of a cluster.
#[inline(always)]
fn len_of_cluster(infos: &[hb_glyph_info_t], cluster: u32) -> usize {
    infos
        .iter()
        .take_while(|info| info.cluster == cluster)
        .count()
}

/// The glyph flags of a cluster, from all those of its glyphs. A place that is unsafe to break is not
/// safe to insert a tatweel at, and one that is safe to insert a tatweel at is unsafe to break.
fn flags_of_cluster(all: u32, flags: BufferFlags) -> u32 {
    let mask = if flags.contains(BufferFlags::PRODUCE_SAFE_TO_INSERT_TATWEEL) {
        with_tatweel(all)
    } else {
        all
    };
    if flags.contains(BufferFlags::PRODUCE_UNSAFE_TO_CONCAT) {
        mask
    } else {
        mask & !glyph_flag::UNSAFE_TO_CONCAT
    }
}

/// The same, where it is asked for where a tatweel may be inserted.
fn with_tatweel(mask: u32) -> u32 {
    if mask & glyph_flag::UNSAFE_TO_BREAK != 0 {
        mask & !glyph_flag::SAFE_TO_INSERT_TATWEEL
    } else if mask & glyph_flag::SAFE_TO_INSERT_TATWEEL != 0 {
        mask | glyph_flag::UNSAFE_TO_BREAK | glyph_flag::UNSAFE_TO_CONCAT
    } else {
        mask
    }
}
