// Written by tools/plain_rust from crates/font_variations. Do not edit.

//! Where normalized coordinates are moved on their axes (OpenType specification, "avar - Axis Variations Table").

use crate::font_tables::bytes::{i16_at, table_at_32, tail, u16_at};
use crate::font_variations::index_map::IndexMap;
use crate::font_variations::regions::coordinate;
use crate::font_variations::rounding::{float, rounded};
use crate::font_variations::variation_store::VariationStore;

/// The maps of a table `avar`.
#[derive(Clone, Copy, Debug)]
pub struct AxisMaps<'a> {
    /// The segment maps of the axes, one behind the other.
    pub maps: &'a [u8],
    /// How many axes have a segment map.
    pub count: u16,
    /// What moves coordinates after that, in version 2 of the table.
    pub second: Option<SecondMap<'a>>,
}

/// The second step of version 2: deltas of coordinates, by all the coordinates.
#[derive(Clone, Copy, Debug)]
pub struct SecondMap<'a> {
    /// Which delta set is for which axis.
    pub indices: IndexMap<'a>,
    /// The deltas.
    pub store: VariationStore<'a>,
}

impl<'a> AxisMaps<'a> {
    /// The maps of a table; none where it is of another major version than 1 and 2, or cut short.
    ///
    /// # Proved
    ///
    /// ```text
    /// ensures maps { result.maps.now ≡ (if is_whole avar.now then drop 8 avar.now else []) }
    /// ensures count { result.count ≡ (if is_whole avar.now then unwrap_or (number_16 avar.now 6) 0 else 0) }
    /// ensures second { option_map tables_of result.second ≡ second_of avar.now }
    /// ```
    #[inline]
    pub fn new(avar: &'a [u8]) -> Self {
        let count = u16_at(avar, 6).unwrap_or(0);
        let maps = tail(avar, 8);
        let version = u16_at(avar, 0).unwrap_or(0);
        if version != 1 && version != 2 {
            return AxisMaps::NONE;
        }
        let Some(behind) = behind_maps(maps, count) else {
            return AxisMaps::NONE;
        };
        AxisMaps {
            maps,
            count,
            second: if version == 2 {
                second_map(avar, behind)
            } else {
                None
            },
        }
    }

    /// No maps: a coordinate stays where it is.
    pub const NONE: AxisMaps<'static> = AxisMaps {
        maps: &[],
        count: 0,
        second: None,
    };

    /// Moves each coordinate by the segment map of its axis.
    ///
    /// # Proved
    ///
    /// ```text
    /// ensures { (axis : ℕ) → axis < length coordinates.new
    ///     → slice_index_or coordinates.new axis (pos 0)
    ///     ≡ moved_on self.now.maps.now self.now.count axis (slice_index_or coordinates.old axis (pos 0)) }
    /// ```
    #[inline]
    pub fn map_segments(&self, coordinates: &mut [i32]) {
        let mut rest = self.maps;
        for axis in 0..coordinates.len().min(usize::from(self.count)) {
            coordinates[axis] = mapped(rest, coordinates[axis]);
            rest = behind_map(rest);
        }
    }

    /// Whether coordinates are moved by all the coordinates together, after the segment maps.
    ///
    /// # Proved
    ///
    /// ```text
    /// ensures { result ≡ is_some self.now.second }
    /// ```
    #[inline]
    pub fn has_second_map(&self) -> bool {
        self.second.is_some()
    }

    /// Where the coordinate of an axis is moved to by all the coordinates together, which stand as the
    /// segment maps left them.
    ///
    /// # Proved
    ///
    /// ```text
    /// ensures { result ≡ moved_by_all self.now axis coordinates.now }
    /// ```
    #[inline]
    pub fn mapped_by_all(&self, axis: u16, coordinates: &[i32]) -> i32 {
        let coordinate = coordinate(coordinates, usize::from(axis));
        match self.second {
            Some(second) => {
                let index = second.indices.index_of(u32::from(axis));
                let delta = rounded(second.store.delta(index, coordinates));
                coordinate.saturating_add(delta).clamp(-16384, 16384)
            }
            None => coordinate,
        }
    }
}

/// The second step of a table of version 2, whose offsets stand behind the segment maps.
///
/// # Requires
///
/// - `behind ≤ length avar.now`
fn second_map<'a>(avar: &'a [u8], behind: usize) -> Option<SecondMap<'a>> {
    debug_assert!(behind <= avar.len());
    let at = 8 + behind;
    if at + 8 > avar.len() {
        return None;
    }
    Some(SecondMap {
        indices: IndexMap::new(table_at_32(avar, at).unwrap_or(&[])),
        store: VariationStore::new(table_at_32(avar, at + 4).unwrap_or(&[])),
    })
}

/// How many bytes so many segment maps have; `None` where they are not all there.
fn behind_maps(maps: &[u8], count: u16) -> Option<usize> {
    let mut at = 0usize;
    for _map in 0..count {
        at = end_of_map(maps, at)?;
    }
    Some(at)
}

/// Where the segment map at a place ends; `None` where it is not all there.
///
/// # Requires
///
/// - `at ≤ length maps.now`
fn end_of_map(maps: &[u8], at: usize) -> Option<usize> {
    debug_assert!(at <= maps.len());
    let end = at + 2 + 4 * usize::from(u16_at(maps, at)?);
    if end <= maps.len() { Some(end) } else { None }
}

/// The segment maps behind the first one.
fn behind_map(maps: &[u8]) -> &[u8] {
    let pairs = u16_at(maps, 0).unwrap_or(0);
    tail(maps, 2 + 4 * usize::from(pairs))
}

/// A pair of a segment map: the coordinate that is moved, and where it is moved to.
#[derive(Clone, Copy, Debug)]
struct Pair {
    from: i32,
    to: i32,
}

/// The pair of a segment map with this number.
fn pair_at(map: &[u8], number: u16) -> Pair {
    let at = 2 + 4 * usize::from(number);
    Pair {
        from: i32::from(i16_at(map, at).unwrap_or(0)),
        to: i32::from(i16_at(map, at + 2).unwrap_or(0)),
    }
}

/// Where a segment map moves a coordinate: evenly between two pairs, and outside of all as far as it
/// moves the nearest.
fn mapped(map: &[u8], coordinate: i32) -> i32 {
    let count = u16_at(map, 0).unwrap_or(0);
    if count == 0 {
        return coordinate;
    }
    if is_up_to_first(map, coordinate) {
        return shifted(coordinate, pair_at(map, 0));
    }
    in_segment(map, segment_of(map, count - 1, coordinate), coordinate)
}

/// Whether a segment map has one pair alone, or a coordinate is not above that of its first.
fn is_up_to_first(map: &[u8], coordinate: i32) -> bool {
    u16_at(map, 0).unwrap_or(0) == 1 || coordinate <= pair_at(map, 0).from
}

/// Where a coordinate is moved in the segment that ends with a pair. From that pair on, it is moved as
/// far as the pair moves its own.
///
/// # Requires
///
/// - `1 ≤ number`
fn in_segment(map: &[u8], number: u16, coordinate: i32) -> i32 {
    debug_assert!(1 <= number);
    let (low, high) = (pair_at(map, number - 1), pair_at(map, number));
    if coordinate >= high.from {
        shifted(coordinate, high)
    } else if low.from == high.from {
        low.to
    } else {
        between(low, high, coordinate)
    }
}

/// The first pair behind pair 0 that a coordinate is not above, or the last one.
///
/// # Requires
///
/// - `1 ≤ last`
fn segment_of(map: &[u8], last: u16, coordinate: i32) -> u16 {
    debug_assert!(1 <= last);
    for number in 1..last {
        if is_up_to(map, number, coordinate) {
            return number;
        }
    }
    last
}

/// Whether a coordinate is not above that of a pair behind pair 0.
fn is_up_to(map: &[u8], number: u16, coordinate: i32) -> bool {
    number >= 1 && coordinate <= pair_at(map, number).from
}

/// A coordinate, moved as far as a pair moves its own.
fn shifted(coordinate: i32, pair: Pair) -> i32 {
    coordinate.saturating_sub(pair.from).saturating_add(pair.to)
}

/// Where a coordinate between two pairs is moved, to the nearest number.
fn between(low: Pair, high: Pair, coordinate: i32) -> i32 {
    let rise = float(high.to.saturating_sub(low.to));
    let run = float(high.from.saturating_sub(low.from));
    let part = float(coordinate.saturating_sub(low.from));
    rounded(float(low.to) + rise * part / run)
}
