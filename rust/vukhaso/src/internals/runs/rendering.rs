// Written by tools/plain_rust from crates/shaping_runs. Do not edit.

//! A text with features and calls, from end to end.

use crate::buffer::{BufferClusterLevel, Feature, GlyphBuffer, UnicodeBuffer, hb_buffer_t};
use crate::glyph::algs::rb_flag;
use crate::runs::call::{Answer, Call};
use crate::runs::call_list::make_call;

/// How many features [`render_at`] takes: the bits that a mask has for them.
pub const MAX_FEATURES: usize = 24;

/// The bit of the first feature. Those below it are for glyph flags.
const FIRST_FEATURE_BIT: u32 = 8;

/// Why a text could not be rendered.
#[derive(Clone, Copy, PartialEq, Eq, Debug)]
#[non_exhaustive]
pub enum RenderFault {
    /// The text is longer than a buffer may be.
    Length,
    /// A call was refused.
    Refused {
        /// The place of the call in the list.
        at: usize,
    },
    /// Memory ran out.
    Memory {
        /// The place of the call that found none, or `None` where the text did not find it. An empty text asks for none.
        at: Option<usize>,
    },
    /// There are more than [`MAX_FEATURES`] features.
    TooManyFeatures,
    /// The calls left an output open.
    OutputLeftOpen,
}

/// Renders a text at the default cluster level, `MonotoneGraphemes`: [`render_at`] says how.
///
/// # Requires
///
/// - `length answers.old ≡ length calls.now`
///
/// # Errors
///
/// `Err`: the clauses below say when.
///
/// # Proved
///
/// ```text
/// ensures { MatchResult result
///     (λ glyphs. RendersTo MonotoneGraphemes text.now features.now calls.now glyphs answers.new)
///     (λ fault. Fails fault MonotoneGraphemes text.now features.now calls.now answers.old
///     answers.new) }
/// ```
#[inline]
pub fn render(
    text: &str,
    features: &[Feature],
    calls: &[Call],
    answers: &mut [Answer],
) -> Result<GlyphBuffer, RenderFault> {
    debug_assert!(answers.len() == calls.len());
    render_at(
        BufferClusterLevel::MonotoneGraphemes,
        text,
        features,
        calls,
        answers,
    )
}

/// # Requires
///
/// As many answers as calls.
///
/// - `length answers.old ≡ length calls.now`
///
/// # Errors
///
/// Renders a text at a cluster level: pushes its characters, gives each feature the mask bit of its
/// place, 8 for the first, in the clusters from its start to its end where its value is not 0, makes
/// the calls in order up to the first that is refused, and puts each glyph at position 0. `Err` with
/// `TooManyFeatures`, `Length` or `Memory { at: None }`: no call was made, and the answers are as they
/// were. With `Refused { at }`: the answers up to that of the refused call are given. With `Memory {
/// at: Some(at) }`: those before the call in which memory ran out are given. With `OutputLeftOpen`: all
/// are.
///
/// # Proved
///
/// ```text
/// ensures { MatchResult result
///     (λ glyphs. RendersTo level text.now features.now calls.now glyphs answers.new)
///     (λ fault. Fails fault level text.now features.now calls.now answers.old answers.new) }
/// ```
#[inline]
pub fn render_at(
    level: BufferClusterLevel,
    text: &str,
    features: &[Feature],
    calls: &[Call],
    answers: &mut [Answer],
) -> Result<GlyphBuffer, RenderFault> {
    debug_assert!(answers.len() == calls.len());
    if features.len() > MAX_FEATURES {
        return Err(RenderFault::TooManyFeatures);
    }
    let mut buffer = buffer_of(level, text)?;
    set_features(&mut buffer, features);
    make_until_refused(&mut buffer, calls, answers)?;
    if buffer.have_output() {
        return Err(RenderFault::OutputLeftOpen);
    }
    buffer.clear_positions();
    Ok(GlyphBuffer::from_buffer(buffer))
}

/// The buffer over a text.
fn buffer_of(level: BufferClusterLevel, text: &str) -> Result<hb_buffer_t, RenderFault> {
    let mut characters = UnicodeBuffer::new();
    characters.set_cluster_level(level);
    match characters.push_str(text) {
        Ok(true) => Ok(characters.into_buffer()),
        Ok(false) => Err(RenderFault::Length),
        Err(_) => Err(RenderFault::Memory { at: None }),
    }
}

/// Sets the mask bit of each feature in its range.
///
/// # Requires
///
/// - `closed: buffer.old.have_output ≡ false`
/// - `few: length features.now ≤ MAX_FEATURES`
fn set_features(buffer: &mut hb_buffer_t, features: &[Feature]) {
    debug_assert!(!buffer.have_output());
    for (i, feature) in features.iter().enumerate() {
        set_feature(buffer, i, feature);
    }
}

/// Sets the mask bit of the feature at this place in its range, or clears it there where its value is
/// 0.
///
/// # Requires
///
/// - `closed: buffer.old.have_output ≡ false`
/// - `within: i < MAX_FEATURES`
fn set_feature(buffer: &mut hb_buffer_t, i: usize, feature: &Feature) {
    debug_assert!(!buffer.have_output());
    let bit = rb_flag(FIRST_FEATURE_BIT + i as u32);
    buffer.set_masks(value_bits(feature, bit), bit, feature.start, feature.end);
}

fn value_bits(feature: &Feature, bit: u32) -> u32 {
    if feature.value == 0 { 0 } else { bit }
}

/// # Requires
///
/// - `length answers.old ≡ length calls.now`
///
/// # Errors
///
/// Makes the calls in order, up to the first that is refused.
fn make_until_refused(
    buffer: &mut hb_buffer_t,
    calls: &[Call],
    answers: &mut [Answer],
) -> Result<(), RenderFault> {
    debug_assert!(answers.len() == calls.len());
    for (i, call) in calls.iter().enumerate() {
        match make_call(buffer, call) {
            Ok(answer) => {
                answers[i] = answer;
                if is_refused(answer) {
                    return Err(RenderFault::Refused { at: i });
                }
            }
            Err(_) => return Err(RenderFault::Memory { at: Some(i) }),
        }
    }
    Ok(())
}

fn is_refused(answer: Answer) -> bool {
    matches!(answer, Answer::Refused)
}
