// Written by tools/plain_rust from crates/script_indic. Do not edit.

//! The base of a syllable: the consonant that signs are placed around.

use crate::buffer::hb_glyph_info_t;
use crate::script_indic::configuration::RephMode;
use crate::script_indic::item::is_consonant;
use crate::script_indic::plan::IndicPlan;
use crate::script_syllables::item::{behind_joiners, category, is_joiner, position};
use crate::script_syllables::{Category, Position};

/// The base of a syllable.
#[derive(Clone, Copy, PartialEq, Eq, Debug)]
pub(crate) struct Base {
    /// Its place; the length of the syllable where there is none.
    pub place: usize,
    /// Whether the syllable begins with a reph.
    pub has_reph: bool,
}

/// The base of a syllable. From its end backwards, it is the first consonant that has no form below or
/// behind another one, or the first consonant of all. A RA that becomes a reph is none, unless it is
/// alone. `forms_reph` says whether the font makes a reph of glyphs.
///
/// # Requires
///
/// - `(state : F) (glyphs : _) → F.pre state glyphs`
pub(crate) fn find_base<F: FnMut(&[u32]) -> bool>(
    syllable: &[hb_glyph_info_t],
    plan: &IndicPlan,
    forms_reph: F,
) -> Base {
    let reph = reph_length(syllable, plan, forms_reph);
    base_of(syllable, reph)
}

/// The base of a syllable whose first items, so many, make a reph. If that is all that there is, RA is
/// the base.
fn base_of(syllable: &[hb_glyph_info_t], reph: Option<usize>) -> Base {
    match reph {
        Some(length) => {
            let limit = behind_joiners(syllable, length);
            let place = last_base(syllable, limit).unwrap_or(0);
            Base {
                place,
                has_reph: place > 0 || limit > 2,
            }
        }
        None => Base {
            place: last_base(syllable, 0).unwrap_or(syllable.len()),
            has_reph: false,
        },
    }
}

/// How many items make a reph at the start of a syllable; `None` where there is none.
///
/// # Requires
///
/// - `(state : F) (glyphs : _) → F.pre state glyphs`
fn reph_length<F: FnMut(&[u32]) -> bool>(
    syllable: &[hb_glyph_info_t],
    plan: &IndicPlan,
    mut forms_reph: F,
) -> Option<usize> {
    let mode = plan.configuration.reph_mode;
    if !may_form_reph(syllable, plan) {
        return encoded_reph(syllable, mode);
    }
    let glyphs = [
        syllable[0].glyph_id,
        syllable[1].glyph_id,
        syllable[2].glyph_id,
    ];
    if forms_reph(&glyphs[..2]) {
        return Some(2);
    }
    match mode {
        RephMode::Explicit => forms_reph(&glyphs).then_some(2),
        _ => None,
    }
}

/// Whether the font is asked for a reph.
fn may_form_reph(syllable: &[hb_glyph_info_t], plan: &IndicPlan) -> bool {
    syllable.len() > 2
        && plan.masks.rphf != 0
        && allows_reph(plan.configuration.reph_mode, &syllable[2])
}

/// Whether an item may stand behind RA and a halant that make a reph.
fn allows_reph(mode: RephMode, third: &hb_glyph_info_t) -> bool {
    match mode {
        RephMode::Implicit => !is_joiner(third),
        RephMode::Explicit => category(third).is(Category::Joiner),
        RephMode::Encoded => false,
    }
}

/// The length of a reph that is a character of its own.
fn encoded_reph(syllable: &[hb_glyph_info_t], mode: RephMode) -> Option<usize> {
    match mode {
        RephMode::Encoded => begins_with_reph(syllable).then_some(1),
        _ => None,
    }
}

/// Whether a syllable begins with one.
fn begins_with_reph(syllable: &[hb_glyph_info_t]) -> bool {
    !syllable.is_empty() && category(&syllable[0]).is(Category::Repha)
}

/// A search for the base.
#[derive(Clone, Copy, PartialEq, Eq, Debug)]
struct BaseSearch {
    /// The last consonant that was found.
    base: Option<usize>,
    /// Whether one with a form below the base was.
    seen_below: bool,
    /// Whether it has ended.
    is_over: bool,
}

/// The last consonant that may be the base, of those from a limit on.
fn last_base(syllable: &[hb_glyph_info_t], limit: usize) -> Option<usize> {
    let mut walk = BaseSearch {
        base: None,
        seen_below: false,
        is_over: false,
    };
    for turn in 0..syllable.len() {
        walk = look_at(syllable, limit, syllable.len() - 1 - turn, walk);
        if walk.is_over {
            return walk.base;
        }
    }
    walk.base
}

/// Goes on with a search at a place.
///
/// # Requires
///
/// - `place < length syllable.now`
fn look_at(
    syllable: &[hb_glyph_info_t],
    limit: usize,
    place: usize,
    walk: BaseSearch,
) -> BaseSearch {
    debug_assert!(place < syllable.len());
    let info = &syllable[place];
    if is_consonant(info) {
        BaseSearch {
            base: Some(place),
            seen_below: walk.seen_below || position(info).is(Position::Below),
            is_over: place <= limit || is_full(info, walk.seen_below),
        }
    } else {
        BaseSearch {
            is_over: place <= limit || ends_half_form(syllable, place),
            ..walk
        }
    }
}

/// Whether a consonant has no form below the base, nor one behind it, but for that before one below.
fn is_full(info: &hb_glyph_info_t, seen_below: bool) -> bool {
    let position = position(info);
    !position.is(Position::Below) && (!position.is(Position::Post) || seen_below)
}

/// Whether a joiner behind a halant stands at a place: it asks for a half form of the consonant before
/// it.
///
/// # Requires
///
/// - `place < length syllable.now`
fn ends_half_form(syllable: &[hb_glyph_info_t], place: usize) -> bool {
    debug_assert!(place < syllable.len());
    place > 0
        && category(&syllable[place]).is(Category::Joiner)
        && category(&syllable[place - 1]).is(Category::Halant)
}
