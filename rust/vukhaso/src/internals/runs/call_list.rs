// Written by tools/plain_rust from crates/shaping_runs. Do not edit.

//! Lists of calls, made in order.

use crate::buffer::hb_buffer_t;
use crate::memory::AllocError;
use crate::runs::call::{Answer, Call};

/// Memory ran out in the call at this place.
#[derive(Clone, Copy, PartialEq, Eq, Debug)]
pub struct Stopped {
    /// The place of the call in the list.
    pub at: usize,
}

/// Makes the calls in order, and answers each. A call whose condition fails is answered `Outside`.
///
/// # Requires
///
/// As many answers as calls.
///
/// - `length answers.old ≡ length calls.now`
///
/// # Errors
///
/// `Err(Stopped { at })` when memory ran out in a call: the calls before it were made, it changed
/// nothing itself, and the answers from there on are as they were.
///
/// # Proved
///
/// ```text
/// ensures answers { OnOk result (answers.new ≡ answers_of calls.now buffer.old) }
/// ensures state { OnOk result (buffer.new ≡ after calls.now buffer.old) }
/// ensures stopped { IfErr result (λ stop.
///     StopsAt stop.at calls.now buffer.old answers.old buffer.new answers.new) }
/// ```
#[inline]
pub fn replay(
    buffer: &mut hb_buffer_t,
    calls: &[Call<'_>],
    answers: &mut [Answer],
) -> Result<(), Stopped> {
    debug_assert!(answers.len() == calls.len());
    for (i, call) in calls.iter().enumerate() {
        match make_call(buffer, call) {
            Ok(answer) => answers[i] = answer,
            Err(_) => return Err(Stopped { at: i }),
        }
    }
    Ok(())
}

/// Makes one call, and answers it: `Outside` where its condition does not hold.
///
/// # Errors
///
/// `Err(AllocError)` where memory ran out: then nothing changed.
///
/// # Proved
///
/// ```text
/// ensures { GivesTurn call.now buffer.old result buffer.new }
/// ```
#[inline]
pub fn make_call(buffer: &mut hb_buffer_t, call: &Call<'_>) -> Result<Answer, AllocError> {
    if !may_be_made(buffer, call) {
        return Ok(Answer::Outside);
    }
    Ok(answer_of(perform(buffer, call)?))
}

/// Whether the condition of a call holds.
fn may_be_made(buffer: &hb_buffer_t, call: &Call<'_>) -> bool {
    let open = buffer.have_output();
    let glyph = buffer.idx() < buffer.len();
    match *call {
        Call::ClearOutput => !open,
        Call::NextGlyph | Call::SkipGlyph => glyph,
        Call::NextGlyphs(n) => n <= buffer.lookahead_len(),
        Call::ReplaceGlyph(_) | Call::CopyGlyph | Call::DeleteGlyph => open && glyph,
        Call::ReplaceGlyphs(num_in, num_out, ids) => {
            open && glyph && num_in <= buffer.lookahead_len() && num_out <= ids.len()
        }
        Call::OutputGlyph(_) | Call::OutputInfo(_) | Call::Sync => open,
        Call::MoveTo(place) => is_place(buffer, place),
        Call::MergeClusters(start, end) | Call::MergeGraphemeClusters(start, end) => {
            is_input_range(buffer, start, end)
        }
        Call::MergeOutClusters(start, end) => open && start <= end && end <= buffer.out_len(),
        Call::UnsafeToBreak(start, end)
        | Call::SafeToInsertTatweel(start, end)
        | Call::UnsafeToConcat(start, end) => {
            is_input_range(buffer, start.unwrap_or(0), range_end(buffer, end))
        }
        Call::UnsafeToBreakFromOutbuffer(start, end)
        | Call::UnsafeToConcatFromOutbuffer(start, end) => {
            is_sides_range(buffer, start.unwrap_or(0), range_end(buffer, end))
        }
    }
}

/// Whether `move_to` may go to this place.
fn is_place(buffer: &hb_buffer_t, place: usize) -> bool {
    if buffer.have_output() {
        let out_len = buffer.out_len();
        place <= out_len || place - out_len <= buffer.lookahead_len()
    } else {
        place <= buffer.len()
    }
}

/// Whether this is a range of the input, not before the cursor while an output is open.
fn is_input_range(buffer: &hb_buffer_t, start: usize, end: usize) -> bool {
    start <= end && end <= buffer.len() && (!buffer.have_output() || buffer.idx() <= start)
}

/// Whether this is a range from the out side into the input while an output is open, and else of the
/// input.
fn is_sides_range(buffer: &hb_buffer_t, start: usize, end: usize) -> bool {
    if buffer.have_output() {
        start <= buffer.out_len() && buffer.idx() <= end
    } else {
        start <= end
    }
}

/// The end of a flag call's range, cut to the length.
fn range_end(buffer: &hb_buffer_t, end: Option<usize>) -> usize {
    end.unwrap_or(buffer.len()).min(buffer.len())
}

/// Makes a call whose condition holds.
///
/// # Requires
///
/// - `Rattle.shaping_runs.specs.Replay.may_be_made call.now buffer.old ≡ true`
///
/// # Errors
///
/// `Ok(false)` where it was refused.
fn perform(buffer: &mut hb_buffer_t, call: &Call<'_>) -> Result<bool, AllocError> {
    match *call {
        Call::ClearOutput => buffer.clear_output(),
        Call::NextGlyph => return buffer.next_glyph(),
        Call::NextGlyphs(n) => return buffer.next_glyphs(n),
        Call::SkipGlyph => buffer.skip_glyph(),
        Call::ReplaceGlyph(id) => return buffer.replace_glyph(id),
        Call::ReplaceGlyphs(num_in, num_out, ids) => {
            return buffer.replace_glyphs(num_in, num_out, ids);
        }
        Call::OutputGlyph(id) => return buffer.output_glyph(id),
        Call::OutputInfo(info) => return buffer.output_info(info),
        Call::CopyGlyph => return buffer.copy_glyph(),
        Call::MoveTo(place) => return buffer.move_to(place),
        Call::Sync => return buffer.sync(),
        Call::DeleteGlyph => buffer.delete_glyph(),
        Call::MergeClusters(start, end) => buffer.merge_clusters(start, end),
        Call::MergeOutClusters(start, end) => buffer.merge_out_clusters(start, end),
        Call::MergeGraphemeClusters(start, end) => buffer.merge_grapheme_clusters(start, end),
        Call::UnsafeToBreak(start, end) => buffer.unsafe_to_break(start, end),
        Call::UnsafeToBreakFromOutbuffer(start, end) => {
            buffer.unsafe_to_break_from_outbuffer(start, end)
        }
        Call::SafeToInsertTatweel(start, end) => buffer.safe_to_insert_tatweel(start, end),
        Call::UnsafeToConcat(start, end) => buffer.unsafe_to_concat(start, end),
        Call::UnsafeToConcatFromOutbuffer(start, end) => {
            buffer.unsafe_to_concat_from_outbuffer(start, end)
        }
    }
    Ok(true)
}

fn answer_of(done: bool) -> Answer {
    if done { Answer::Done } else { Answer::Refused }
}
