// Written by tools/plain_rust from crates/shaping_uses. Do not edit.

//! Lists of calls, made by `replay`.

use vukhaso::internals::buffer::{UnicodeBuffer, hb_buffer_t};
use vukhaso::internals::runs::{Answer, Call, Stopped, replay};
use vukhaso::memory::AllocError;

/// Puts the first two characters of a text into one cluster.
///
/// # Errors
///
/// `Ok(false)` where it has no two, or more than a buffer may hold. `Err(AllocError)` comes only where
/// the text is not empty.
///
/// # Proved
///
/// ```text
/// ensures is { IfOk result (λ done. IsTrue done
///     ↔ ((2 ≤ length (chars text.now)) × (length (chars text.now) ≤ 0x3FFF_FFFF))) }
/// ensures wants { OnErr result (0 < length (chars text.now)) }
/// ```
#[inline]
pub fn first_two_as_one(text: &str) -> Result<bool, AllocError> {
    let mut characters = UnicodeBuffer::new();
    if !characters.push_str(text)? {
        return Ok(false);
    }
    let mut buffer = characters.into_buffer();
    let mut answers = [Answer::Outside];
    let Ok(()) = replay(&mut buffer, &[Call::MergeClusters(0, 2)], &mut answers) else {
        return Err(AllocError);
    };
    Ok(answers[0] == Answer::Done)
}

/// Makes the first two glyphs one ligature, and answers each of its three calls: `Outside` for the
/// second where there are no two glyphs. No cluster number comes in that was not there.
///
/// # Errors
///
/// `Err(Stopped)` comes only where an output was open before: then the calls before the one that
/// stopped stand.
///
/// # Proved
///
/// ```text
/// ensures answers { IfOk result (λ answers.
///     answers ≡ answers_of (ligature_calls ligature) buffer.old) }
/// ensures state { OnOk result (buffer.new ≡ after (ligature_calls ligature) buffer.old) }
/// ensures stopped { IfErr result (λ stop.
///     buffer.new ≡ after (take stop.at (ligature_calls ligature)) buffer.old) }
/// ensures opened { OnErr result (buffer.old.have_output ≡ true) }
/// ensures clusters { (c : ℕ) → occurs c (clusters (both buffer.new)) ≡ true
///     → occurs c (clusters (both buffer.old)) ≡ true }
/// ```
#[inline]
pub fn ligate_first_two(buffer: &mut hb_buffer_t, ligature: u32) -> Result<[Answer; 3], Stopped> {
    let ids = [ligature];
    let calls = [
        Call::ClearOutput,
        Call::ReplaceGlyphs(2, 1, &ids),
        Call::Sync,
    ];
    let mut answers = [Answer::Outside; 3];

    replay(buffer, &calls, &mut answers)?;
    Ok(answers)
}
