// Written by tools/plain_rust from crates/ot_shape. Do not edit.

//! The shaping of a text by a font: HarfBuzz's steps, one after the other.

use crate::buffer::{
    BufferFlags, Direction, Feature, GlyphBuffer, UnicodeBuffer, hb_buffer_t, hb_glyph_info_t,
};
use crate::font_face::Face;
use crate::font_functions::{FontFunctions, OwnFunctions};
use crate::memory::AllocError;
use crate::ot_apply::{set_masks, substitute};
use crate::ot_characters::{
    ensure_native_direction, form_clusters, insert_dotted_circle, keep_contexts, keep_numbers,
    rotate_characters, set_direction, set_properties,
};
use crate::ot_gsub::substitute_start;
use crate::ot_normalization::normalize;
use crate::ot_plan::{FaceGlyphs, Step, TextPlan, Unwatched, Watch, plan_of_text};
use crate::ot_positioning::position;
use crate::ot_positions::recategorize_marks;
use crate::ot_shape::ending::finish_glyphs;
use crate::ot_shape::verified::shape_verified;
use crate::script_shapers::ScriptShaper;
use crate::verification::ShapeError;

/// Shapes a text by a font: finds a glyph for each of its characters, and says where each is drawn. A
/// script and a direction that were not said are guessed.
///
/// The glyphs have as many positions, and are no more than 64 for each character, or 16384. Each is in
/// a cluster of the text's. Where the characters' clusters rise, as `push_str` leaves them, and the
/// cluster level is a monotone one, the glyphs' clusters rise in a line that runs forward, and fall in
/// one that runs backward, so that a caret has a place at each glyph, whatever the font.
///
/// Under `BufferFlags::VERIFY` the glyphs are tested: whether clusters stand in order, and whether
/// parts of the text that are shaped apart, cut where this is said to be safe, have the same glyphs.
///
/// # Errors
///
/// `Err`: the clauses below say when.
///
/// # Proved
///
/// ```text
/// ensures { Shapes (guessed text).direction text result }
/// ```
#[inline]
pub fn shape(
    face: &Face,
    features: &[Feature],
    text: UnicodeBuffer,
) -> Result<GlyphBuffer, ShapeError> {
    shape_watched(face, features, text, &mut Unwatched)
}

/// Shapes a text by a font, and tells of each step.
///
/// # Errors
///
/// `Err`: the clauses below say when.
///
/// # Proved
///
/// ```text
/// ensures { Shapes (guessed text).direction text result }
/// ```
#[inline]
pub fn shape_watched<W: Watch>(
    face: &Face,
    features: &[Feature],
    text: UnicodeBuffer,
    watch: &mut W,
) -> Result<GlyphBuffer, ShapeError> {
    shape_with_functions_watched(face, &OwnFunctions { face }, features, text, watch)
}

/// Shapes a text by a font of which these functions answer the glyphs of characters and their measures,
/// in place of its own tables. What is said of `shape` holds whatever they answer. Lookups, the size
/// and the variations are the face's.
///
/// # Errors
///
/// `Err`: the clauses below say when.
///
/// # Proved
///
/// ```text
/// ensures { Shapes (guessed text).direction text result }
/// ```
#[inline]
pub fn shape_with_functions<F: FontFunctions>(
    face: &Face,
    font: &F,
    features: &[Feature],
    text: UnicodeBuffer,
) -> Result<GlyphBuffer, ShapeError> {
    shape_with_functions_watched(face, font, features, text, &mut Unwatched)
}

/// Shapes a text by a font of which these functions answer, and tells of each step.
///
/// # Errors
///
/// `Err`: the clauses below say when.
///
/// # Proved
///
/// ```text
/// ensures { Shapes (guessed text).direction text result }
/// ```
#[inline]
pub fn shape_with_functions_watched<F: FontFunctions, W: Watch>(
    face: &Face,
    font: &F,
    features: &[Feature],
    text: UnicodeBuffer,
    watch: &mut W,
) -> Result<GlyphBuffer, ShapeError> {
    let mut text = text;
    text.guess_segment_properties();
    let buffer = text.into_buffer();
    let plan = plan_of_text(face, font, &buffer, features)?;
    shape_by_plan(face, font, &plan, features, buffer, watch)
}

/// Shapes the text of a buffer by a plan, and tests its glyphs where the buffer is to be verified.
///
/// # Requires
///
/// - `buffer.have_output ≡ false`
pub(crate) fn shape_by_plan<F: FontFunctions, W: Watch>(
    face: &Face,
    font: &F,
    plan: &TextPlan,
    features: &[Feature],
    buffer: hb_buffer_t,
    watch: &mut W,
) -> Result<GlyphBuffer, ShapeError> {
    debug_assert!(!buffer.have_output());
    if buffer.flags.contains(BufferFlags::VERIFY) {
        shape_verified(face, font, plan, features, buffer)
    } else {
        shape_planned(face, font, plan, features, buffer, watch)
    }
}

/// Shapes the text of a buffer by a plan, without tests.
///
/// # Requires
///
/// - `text.have_output ≡ false`
pub(crate) fn shape_planned<F: FontFunctions, W: Watch>(
    face: &Face,
    font: &F,
    plan: &TextPlan,
    features: &[Feature],
    text: hb_buffer_t,
    watch: &mut W,
) -> Result<GlyphBuffer, ShapeError> {
    debug_assert!(!text.have_output());
    let mut buffer = text;
    buffer.enter();
    if !shape_buffer(&mut buffer, face, font, plan, features, watch)? {
        return Err(ShapeError::TooLong);
    }
    Ok(GlyphBuffer::from_buffer(buffer))
}

/// How the text of a line is shaped.
#[derive(Clone, Copy, Debug)]
struct TextLine<'a> {
    /// The plan of the text.
    plan: &'a TextPlan,
    /// The features that a user asked for.
    features: &'a [Feature],
    /// The way in which the line was said to run.
    direction: Direction,
}

/// Shapes the text of a buffer.
///
/// # Requires
///
/// - `buffer.old.have_output ≡ false`
///
/// # Errors
///
/// `Ok(false)` where a call was refused for length.
fn shape_buffer<F: FontFunctions, W: Watch>(
    buffer: &mut hb_buffer_t,
    face: &Face,
    font: &F,
    plan: &TextPlan,
    features: &[Feature],
    watch: &mut W,
) -> Result<bool, AllocError> {
    debug_assert!(!buffer.have_output());
    debug_assert!(buffer.out_len() == 0);
    let limit = buffer.max_len();
    let line = TextLine {
        plan,
        features,
        direction: buffer.direction,
    };
    if !make_glyphs(buffer, face, font, &line, watch)? {
        return Ok(false);
    }
    if buffer.len() > limit {
        return Ok(false);
    }
    end_line(buffer, line.direction);
    watch.step(Step::Shaped, buffer)?;
    Ok(true)
}

/// Ends the shaping of a line that was said to run in this direction.
///
/// # Requires
///
/// - `closed: buffer.old.have_output ≡ false`
/// - `placed: IsSome buffer.old.positions`
fn end_line(buffer: &mut hb_buffer_t, direction: Direction) {
    debug_assert!(!buffer.have_output());
    debug_assert!(buffer.have_positions());
    set_direction(buffer, direction);
    debug_assert!(buffer.out_len() == 0);
    buffer.leave();
}

/// Makes glyphs of the characters of a line, with their positions.
///
/// # Requires
///
/// - `closed: buffer.old.have_output ≡ false`
/// - `direction: line.now.direction ≡ buffer.old.direction`
///
/// # Errors
///
/// `Ok(false)` where a call was refused for length.
fn make_glyphs<F: FontFunctions, W: Watch>(
    buffer: &mut hb_buffer_t,
    face: &Face,
    font: &F,
    line: &TextLine<'_>,
    watch: &mut W,
) -> Result<bool, AllocError> {
    debug_assert!(!buffer.have_output());
    if !begin_characters(buffer, font, line.plan)? {
        return Ok(false);
    }
    let is_turned = ensure_native_direction(buffer);
    if !shape_native(buffer, face, font, *line, watch)? {
        return Ok(false);
    }
    reverse_if(buffer, is_against(line.direction.is_forward(), is_turned));
    finish_glyphs(buffer, face, font, line.plan)
}

/// Whether the glyphs stand against the line: it runs forward and the text was turned, or it runs
/// backward and the text was not.
fn is_against(is_forward: bool, is_turned: bool) -> bool {
    if is_forward { is_turned } else { !is_turned }
}

/// Reverses the glyphs where this is said.
///
/// # Requires
///
/// - `closed: buffer.old.have_output ≡ false`
/// - `placed: IsSome buffer.old.positions`
fn reverse_if(buffer: &mut hb_buffer_t, is_against: bool) {
    debug_assert!(!buffer.have_output());
    debug_assert!(buffer.have_positions());
    if is_against {
        buffer.reverse();
    }
}

/// Makes glyphs of characters that stand in the direction of their script.
///
/// # Requires
///
/// - `buffer.old.have_output ≡ false`
///
/// # Errors
///
/// `Ok(false)` where a call was refused for length.
fn shape_native<F: FontFunctions, W: Watch>(
    buffer: &mut hb_buffer_t,
    face: &Face,
    font: &F,
    line: TextLine<'_>,
    watch: &mut W,
) -> Result<bool, AllocError> {
    debug_assert!(!buffer.have_output());
    if !prepare_characters(buffer, face, font, line.plan, line.direction)? {
        return Ok(false);
    }
    find_glyphs(buffer, face, line.plan, line.features, watch)?;
    if !substitute(buffer, face, font, line.plan, watch)? {
        return Ok(false);
    }
    position(buffer, face, font, line.plan, line.direction, watch)?;
    Ok(true)
}

/// Finds the glyph of each character, and the features that it has.
///
/// # Requires
///
/// - `buffer.old.have_output ≡ false`
fn find_glyphs<W: Watch>(
    buffer: &mut hb_buffer_t,
    face: &Face,
    plan: &TextPlan,
    features: &[Feature],
    watch: &mut W,
) -> Result<(), AllocError> {
    debug_assert!(!buffer.have_output());
    mask_characters(buffer, plan, features);
    watch.step(Step::Characters, buffer)?;
    map_glyphs(buffer, face);
    watch.step(Step::Glyphs, buffer)
}

/// Sets the features that each character has, and the classes of marks that are placed without the
/// font's help.
///
/// # Requires
///
/// - `buffer.old.have_output ≡ false`
fn mask_characters(buffer: &mut hb_buffer_t, plan: &TextPlan, features: &[Feature]) {
    debug_assert!(!buffer.have_output());
    set_masks(buffer, plan, features);
    if plan.shape.fallback_mark_positioning {
        recategorize_marks(buffer);
    }
}

/// Sets the properties of the characters, and makes clusters of them.
///
/// # Requires
///
/// - `buffer.old.have_output ≡ false`
///
/// # Errors
///
/// `Ok(false)` where a call was refused for length.
fn begin_characters<F: FontFunctions>(
    buffer: &mut hb_buffer_t,
    font: &F,
    plan: &TextPlan,
) -> Result<bool, AllocError> {
    debug_assert!(!buffer.have_output());
    buffer.reset_masks(plan.shape.layout.global_mask);
    if !form_characters(buffer, font)? {
        return Ok(false);
    }
    keep_numbers(buffer);
    keep_joining(buffer, plan.script.shaper);
    Ok(true)
}

/// Sets the properties of the characters, puts a dotted circle before a text that wants one, and makes
/// clusters.
///
/// # Requires
///
/// - `buffer.old.have_output ≡ false`
///
/// # Errors
///
/// `Ok(false)` where a call was refused for length.
fn form_characters<F: FontFunctions>(
    buffer: &mut hb_buffer_t,
    font: &F,
) -> Result<bool, AllocError> {
    debug_assert!(!buffer.have_output());
    set_properties(buffer);
    if !insert_dotted_circle(buffer, font)? {
        return Ok(false);
    }
    form_clusters(buffer);
    Ok(true)
}

/// Marks what may not be broken where letters join, for the contexts of a text that is turned.
///
/// # Requires
///
/// - `buffer.old.have_output ≡ false`
fn keep_joining(buffer: &mut hb_buffer_t, shaper: ScriptShaper) {
    debug_assert!(!buffer.have_output());
    if matches!(
        shaper,
        ScriptShaper::Arabic | ScriptShaper::UniversalJoining
    ) {
        keep_contexts(buffer);
    }
}

/// Prepares the characters by their script, and finds a glyph for each.
///
/// # Requires
///
/// - `buffer.old.have_output ≡ false`
///
/// # Errors
///
/// `Ok(false)` where a call was refused for length.
fn prepare_characters<F: FontFunctions>(
    buffer: &mut hb_buffer_t,
    face: &Face,
    font: &F,
    plan: &TextPlan,
    direction: Direction,
) -> Result<bool, AllocError> {
    debug_assert!(!buffer.have_output());
    if !plan
        .script
        .preprocess_text(buffer, &FaceGlyphs { face, font })?
    {
        return Ok(false);
    }
    rotate_characters(buffer, font, &plan.shape, direction);
    normalize(buffer, font, &plan.script)
}

/// Puts the glyph of each character in its place, with the properties that the font gives it.
///
/// # Requires
///
/// - `buffer.old.have_output ≡ false`
fn map_glyphs(buffer: &mut hb_buffer_t, face: &Face) {
    debug_assert!(!buffer.have_output());
    put_glyphs(buffer);
    substitute_start(buffer, &face.gdef);
}

/// Puts the glyph of each character in its place.
///
/// # Requires
///
/// - `buffer.old.have_output ≡ false`
fn put_glyphs(buffer: &mut hb_buffer_t) {
    debug_assert!(!buffer.have_output());
    put_all(buffer.info_slice_mut());
}

/// Puts the glyph of each of the characters in its place.
fn put_all(infos: &mut [hb_glyph_info_t]) {
    for info in infos.iter_mut() {
        put(info);
    }
}

/// Puts the glyph of a character in its place.
fn put(info: &mut hb_glyph_info_t) {
    info.glyph_id = info.glyph_index();
}
