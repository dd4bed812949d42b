// Written by tools/plain_rust from crates/font_outlines. Do not edit.

//! The path of a glyph that a charstring of the table `CFF2` draws (OpenType specification, "CFF2 CharString Format").

use crate::font_outlines::charstring::{DEEPEST_CALL, MOST_STEPS, State, UNIT};
use crate::font_outlines::path::Path;
use crate::font_tables::bytes::{tail, u8_at};
use crate::font_variations::VariationStore;
#[cfg(not(any(test, feature = "std")))]
use crate::numbers::Round;
use crate::numbers::{nearest_i64_to_f64, saturating_f64_to_i32};
use crate::outline_tables::index_2::subroutine_2;

/// What a charstring of `CFF2` is run with.
#[derive(Clone, Copy, Debug)]
pub(crate) struct Setting2<'a> {
    /// The subroutines of the glyph's Private DICT, as an INDEX.
    pub local: &'a [u8],
    /// The subroutines of the whole font, as an INDEX.
    pub global: &'a [u8],
    /// The deltas of the font.
    pub store: VariationStore<'a>,
    /// The place in the variations; no coordinates where none are chosen.
    pub coordinates: &'a [i32],
}

/// What a charstring of `CFF2` leaves from one operator to the next.
#[derive(Debug)]
struct State2 {
    /// What one of `CFF ` does, too.
    state: State,
    /// The number of the regions whose deltas are blended.
    set: u16,
}

const VSINDEX: u8 = 15;

const BLEND: u8 = 16;

const CALLSUBR: u8 = 10;

const CALLGSUBR: u8 = 29;

/// The path that a charstring draws, with the regions that its Private DICT says; `None` where it is
/// broken, or takes more steps than are allowed.
pub(crate) fn draw_charstring_2(
    charstring: &[u8],
    setting: &Setting2<'_>,
    set: u16,
) -> Option<Path> {
    let mut state = State2 {
        state: State::new(),
        set,
    };
    let mut steps = MOST_STEPS;
    run_2(&mut state, setting, charstring, DEEPEST_CALL, &mut steps)?;
    Some(state.state.path())
}

/// Runs a charstring or a subroutine up to its end.
fn run_2(
    state: &mut State2,
    setting: &Setting2<'_>,
    code: &[u8],
    depth: u32,
    steps: &mut u32,
) -> Option<()> {
    let mut rest = code;
    while *steps > 0 {
        *steps -= 1;
        let Some(operator) = u8_at(rest, 0) else {
            return Some(());
        };
        match operator {
            CALLSUBR | CALLGSUBR => {
                let number = state.state.pop()? / UNIT;
                let callable = if operator == CALLSUBR {
                    setting.local
                } else {
                    setting.global
                };
                let called = subroutine_2(callable, number)?;
                if depth == 0 {
                    return None;
                }
                run_2(state, setting, called, depth - 1, steps)?;
                rest = tail(rest, 1);
            }
            VSINDEX => {
                state.set = u16::try_from(state.state.pop()? / UNIT).ok()?;
                rest = tail(rest, 1);
            }
            BLEND => {
                blend(state, setting)?;
                rest = tail(rest, 1);
            }
            _ => rest = state.state.step(operator, rest)?,
        }
    }
    None
}

/// Adds to some numbers their deltas, which stand behind them, one of each region: those of the first
/// number first. The last number says how many numbers there are.
fn blend(state: &mut State2, setting: &Setting2<'_>) -> Option<()> {
    let count = usize::try_from(state.state.pop()? / UNIT).ok()?;
    let regions = usize::from(setting.store.region_count(state.set));
    let deltas = count.checked_mul(regions)?;
    let behind = state.state.numbers().len().checked_sub(deltas)?;
    let first = behind.checked_sub(count)?;
    for place in 0..count {
        let numbers = state.state.numbers();
        let delta = delta_of(setting, state.set, numbers, behind + place * regions);
        state.state.add(first + place, delta);
    }
    state.state.drop_last(deltas)
}

/// What the deltas from a place on add up to, each as much as its region holds.
///
/// # Requires
///
/// - `start ≤ 513`
fn delta_of(setting: &Setting2<'_>, set: u16, numbers: &[i32], start: usize) -> i32 {
    debug_assert!(start <= 513);
    if setting.coordinates.is_empty() {
        return 0;
    }
    let mut sum = 0.0;
    for region in 0..setting.store.region_count(set) {
        let scalar = setting
            .store
            .region_scalar(set, region, setting.coordinates);
        let delta = numbers
            .get(start + usize::from(region))
            .copied()
            .unwrap_or(0);
        sum += f64::from(scalar) * nearest_i64_to_f64(i64::from(delta));
    }
    saturating_f64_to_i32((sum + 0.5).floor())
}
