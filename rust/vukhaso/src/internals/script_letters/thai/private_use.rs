// Written by tools/plain_rust from crates/script_letters. Do not edit.

//! Thai in a font without lookups for it: marks that are moved down or left, and bases without their descender, as old fonts have
//! them in the private use area.

use crate::buffer::{hb_buffer_t, hb_glyph_info_t};
use crate::script_items::font::FontGlyphs;

/// A consonant, by what stands in the way of marks.
#[derive(Clone, Copy, PartialEq, Eq, Debug)]
enum Consonant {
    /// Nothing does.
    Plain,
    /// It ascends.
    Ascending,
    /// It descends, and has a form without descender.
    RemovableDescender,
    /// It descends.
    StrictDescender,
    /// It is none.
    Not,
}

/// A mark, by where it stands.
#[derive(Clone, Copy, PartialEq, Eq, Debug)]
enum Mark {
    /// A vowel above.
    AboveVowel,
    /// A vowel below.
    BelowVowel,
    /// A tone mark.
    Tone,
}

/// What is done with a glyph.
#[derive(Clone, Copy, PartialEq, Eq, Debug)]
enum Action {
    /// Nothing.
    Keep,
    /// The mark is moved down.
    Down,
    /// The mark is moved left.
    Left,
    /// The mark is moved down and left.
    DownLeft,
    /// The base loses its descender.
    RemoveDescender,
}

/// What is above a consonant.
#[derive(Clone, Copy, PartialEq, Eq, Debug)]
enum Above {
    /// Nothing.
    Free,
    /// The ascender of the consonant.
    Ascender,
    /// The ascender, and a mark left of it.
    AscenderAndMark,
    /// All places are taken.
    Full,
}

/// What is below a consonant.
#[derive(Clone, Copy, PartialEq, Eq, Debug)]
enum Below {
    /// Nothing.
    Free,
    /// A descender that can be removed.
    Removable,
    /// A descender or a vowel.
    Taken,
}

/// What stands around the consonant that was read last.
#[derive(Clone, Copy, Debug)]
struct Around {
    base: usize,
    above: Above,
    below: Below,
}

impl Consonant {
    /// The kind of a character.
    fn of(character: u32) -> Consonant {
        match character {
            0xE1B | 0xE1D | 0xE1F => Consonant::Ascending,
            0xE0D | 0xE10 => Consonant::RemovableDescender,
            0xE0E | 0xE0F => Consonant::StrictDescender,
            0xE01..=0xE2E => Consonant::Plain,
            _ => Consonant::Not,
        }
    }

    /// What is above it before there are marks.
    fn above(self) -> Above {
        match self {
            Consonant::Ascending => Above::Ascender,
            Consonant::Not => Above::Full,
            Consonant::Plain | Consonant::RemovableDescender | Consonant::StrictDescender => {
                Above::Free
            }
        }
    }

    /// What is below it before there are marks.
    fn below(self) -> Below {
        match self {
            Consonant::Plain | Consonant::Ascending => Below::Free,
            Consonant::RemovableDescender => Below::Removable,
            Consonant::StrictDescender | Consonant::Not => Below::Taken,
        }
    }
}

impl Mark {
    /// The kind of a character; `None` for one that is no mark.
    fn of(character: u32) -> Option<Mark> {
        match character {
            0xE31 | 0xE34..=0xE37 | 0xE47 | 0xE4D..=0xE4E => Some(Mark::AboveVowel),
            0xE38..=0xE3A => Some(Mark::BelowVowel),
            0xE48..=0xE4C => Some(Mark::Tone),
            _ => None,
        }
    }
}

impl Above {
    /// What is done with the next mark, and what is above then.
    fn next(self, mark: Mark) -> (Action, Above) {
        match mark {
            Mark::BelowVowel => (Action::Keep, self),
            Mark::AboveVowel => match self {
                Above::Free => (Action::Keep, Above::Full),
                Above::Ascender => (Action::Left, Above::AscenderAndMark),
                Above::AscenderAndMark => (Action::Keep, Above::Full),
                Above::Full => (Action::Keep, Above::Full),
            },
            Mark::Tone => match self {
                Above::Free => (Action::Down, Above::Full),
                Above::Ascender => (Action::DownLeft, Above::AscenderAndMark),
                Above::AscenderAndMark => (Action::Left, Above::Full),
                Above::Full => (Action::Keep, Above::Full),
            },
        }
    }
}

impl Below {
    /// What is done with the next mark, and what is below then.
    fn next(self, mark: Mark) -> (Action, Below) {
        match mark {
            Mark::AboveVowel | Mark::Tone => (Action::Keep, self),
            Mark::BelowVowel => match self {
                Below::Free => (Action::Keep, Below::Taken),
                Below::Removable => (Action::RemoveDescender, Below::Taken),
                Below::Taken => (Action::Down, Below::Taken),
            },
        }
    }
}

impl Around {
    /// What stands around a character that is no mark.
    fn of(base: usize, character: u32) -> Around {
        let consonant = Consonant::of(character);
        Around {
            base,
            above: consonant.above(),
            below: consonant.below(),
        }
    }

    /// Adds a mark, and says what is done.
    fn add(&mut self, mark: Mark) -> Action {
        let (above, next_above) = self.above.next(mark);
        let (below, next_below) = self.below.next(mark);
        self.above = next_above;
        self.below = next_below;
        chosen(above, below)
    }
}

/// What is done above, or else what is done below: one of both is nothing.
fn chosen(above: Action, below: Action) -> Action {
    match above {
        Action::Keep => below,
        Action::Down | Action::Left | Action::DownLeft | Action::RemoveDescender => above,
    }
}

/// Gives marks and bases the glyphs that the font has for them in the private use area.
///
/// # Requires
///
/// - `buffer.old.have_output ≡ false`
///
/// # Proved
///
/// ```text
/// ensures { StaysClosed buffer.old buffer.new }
/// ```
#[inline]
pub fn shape_private_use<F: FontGlyphs>(buffer: &mut hb_buffer_t, font: &F) {
    debug_assert!(!buffer.have_output());
    let mut around = Around {
        base: 0,
        above: Above::Full,
        below: Below::Taken,
    };
    for i in 0..buffer.len() {
        let character = character_at(buffer.info(), i);
        match Mark::of(character) {
            None => around = Around::of(i, character),
            Some(mark) => {
                let action = around.add(mark);
                shape_mark(buffer, around.base, i, action, font);
            }
        }
    }
}

/// Does what is to be done with the mark at a place, or with the base before it.
///
/// # Requires
///
/// - `buffer.old.have_output ≡ false`
fn shape_mark<F: FontGlyphs>(
    buffer: &mut hb_buffer_t,
    base: usize,
    mark: usize,
    action: Action,
    font: &F,
) {
    debug_assert!(!buffer.have_output());
    keep_to_base(buffer, base, mark);
    let place = place_of(action, base, mark);
    replace_at(buffer, place, action, font);
}

/// Flags a base and the marks before a place as unsafe to break.
///
/// # Requires
///
/// - `buffer.old.have_output ≡ false`
fn keep_to_base(buffer: &mut hb_buffer_t, base: usize, mark: usize) {
    debug_assert!(!buffer.have_output());
    if base <= mark && mark <= buffer.len() {
        buffer.unsafe_to_break(Some(base), Some(mark));
    }
}

/// Where something is done: at the base, which loses its descender, or at the mark.
fn place_of(action: Action, base: usize, mark: usize) -> usize {
    match action {
        Action::RemoveDescender => base,
        Action::Keep | Action::Down | Action::Left | Action::DownLeft => mark,
    }
}

/// The character at a place.
fn character_at(infos: &[hb_glyph_info_t], place: usize) -> u32 {
    if place < infos.len() {
        infos[place].glyph_id
    } else {
        0
    }
}

/// Puts a character of the private use area in the place of the one at `place`, if the font has it.
///
/// # Requires
///
/// - `buffer.old.have_output ≡ false`
fn replace_at<F: FontGlyphs>(buffer: &mut hb_buffer_t, place: usize, action: Action, font: &F) {
    debug_assert!(!buffer.have_output());
    replace_character(buffer.info_slice_mut(), place, action, font);
}

/// Puts such a character in its place.
fn replace_character<F: FontGlyphs>(
    infos: &mut [hb_glyph_info_t],
    place: usize,
    action: Action,
    font: &F,
) {
    if place < infos.len() {
        shape_character(&mut infos[place], action, font);
    }
}

/// Gives an item the character of the private use area that the font has for it.
fn shape_character<F: FontGlyphs>(info: &mut hb_glyph_info_t, action: Action, font: &F) {
    info.glyph_id = private_use_of(font, action, info.glyph_id).unwrap_or(info.glyph_id);
}

/// The character of the private use area that the font has for one that something is done with.
fn private_use_of<F: FontGlyphs>(font: &F, action: Action, character: u32) -> Option<u32> {
    one_of(font, private_use(action, character))
}

/// The first of two characters that the font has.
fn one_of<F: FontGlyphs>(font: &F, forms: Option<(u32, u32)>) -> Option<u32> {
    match forms {
        Some((windows, macintosh)) => {
            if font.has_glyph(windows) {
                Some(windows)
            } else if font.has_glyph(macintosh) {
                Some(macintosh)
            } else {
                None
            }
        }
        None => None,
    }
}

/// The characters that fonts for Windows and for the Macintosh have for a character that something is
/// done with.
fn private_use(action: Action, character: u32) -> Option<(u32, u32)> {
    match action {
        Action::Keep => None,
        Action::Down => moved_down(character),
        Action::DownLeft => moved_down_left(character),
        Action::Left => moved_left(character),
        Action::RemoveDescender => without_descender(character),
    }
}

/// A mark that is moved down.
fn moved_down(character: u32) -> Option<(u32, u32)> {
    match character {
        0xE48 => Some((0xF70A, 0xF88B)),
        0xE49 => Some((0xF70B, 0xF88E)),
        0xE4A => Some((0xF70C, 0xF891)),
        0xE4B => Some((0xF70D, 0xF894)),
        0xE4C => Some((0xF70E, 0xF897)),
        0xE38 => Some((0xF718, 0xF89B)),
        0xE39 => Some((0xF719, 0xF89C)),
        0xE3A => Some((0xF71A, 0xF89D)),
        _ => None,
    }
}

/// A tone mark that is moved down and left.
fn moved_down_left(character: u32) -> Option<(u32, u32)> {
    match character {
        0xE48 => Some((0xF705, 0xF88C)),
        0xE49 => Some((0xF706, 0xF88F)),
        0xE4A => Some((0xF707, 0xF892)),
        0xE4B => Some((0xF708, 0xF895)),
        0xE4C => Some((0xF709, 0xF898)),
        _ => None,
    }
}

/// A mark that is moved left.
fn moved_left(character: u32) -> Option<(u32, u32)> {
    match character {
        0xE48 => Some((0xF713, 0xF88A)),
        0xE49 => Some((0xF714, 0xF88D)),
        0xE4A => Some((0xF715, 0xF890)),
        0xE4B => Some((0xF716, 0xF893)),
        0xE4C => Some((0xF717, 0xF896)),
        0xE31 => Some((0xF710, 0xF884)),
        0xE34 => Some((0xF701, 0xF885)),
        0xE35 => Some((0xF702, 0xF886)),
        0xE36 => Some((0xF703, 0xF887)),
        0xE37 => Some((0xF704, 0xF888)),
        0xE47 => Some((0xF712, 0xF889)),
        0xE4D => Some((0xF711, 0xF899)),
        _ => None,
    }
}

/// A consonant without its descender.
fn without_descender(character: u32) -> Option<(u32, u32)> {
    match character {
        0xE0D => Some((0xF70F, 0xF89A)),
        0xE10 => Some((0xF700, 0xF89E)),
        _ => None,
    }
}
