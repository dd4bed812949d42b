//! Lists of calls, where lines of the program do not say all: what a caller alone can hand in, and how a buffer stores its glyphs.

use crate::Fail;
use crate::buffer::lists::buffer_of;
use vukhaso::internals::buffer::{hb_buffer_t, hb_glyph_info_t};
use vukhaso::internals::runs::{Answer, Call, Stopped, replay};
use vukhaso::memory::String;

/// A glyph as it is seen here: its id, its cluster and its glyph flags.
type Seen = (u32, u32, u32);

const DONE: Answer = Answer::Done;

const REFUSED: Answer = Answer::Refused;

const OUTSIDE: Answer = Answer::Outside;

/// A glyph of the caller's.
const GLYPH: hb_glyph_info_t = hb_glyph_info_t {
    glyph_id: 5,
    mask: 9,
    cluster: 6,
    var1: 0,
    var2: 0,
};

fn assert_glyphs(glyphs: &[hb_glyph_info_t], want: &[Seen]) {
    assert!(glyphs.len() == want.len(), "{want:?}");
    for (glyph, want) in glyphs.iter().zip(want) {
        assert!(
            (glyph.glyph_id, glyph.cluster, glyph.mask & 7) == *want,
            "{want:?}"
        );
    }
}

/// Makes a call, and asserts its answer, and whether the output is separate behind it.
fn make_one(buffer: &mut hb_buffer_t, call: Call<'_>, answer: Answer, separate: bool) {
    let mut answers = [OUTSIDE];
    assert!(replay(buffer, &[call], &mut answers) == Ok(()));
    let found = (answers[0], buffer.have_separate_output());
    assert!(found == (answer, separate), "{call:?}");
}

/// Makes calls in order, and asserts the same of each.
fn make_all(buffer: &mut hb_buffer_t, rows: &[(Call<'_>, Answer, bool)]) {
    for (call, answer, separate) in rows {
        make_one(buffer, *call, *answer, *separate);
    }
}

/// A limit of so many glyphs on each side of AB.
fn set_limit(buffer: &mut hb_buffer_t, limit: usize) {
    assert!(buffer.len() <= limit && buffer.out_len() <= limit);
    buffer.set_max_len(limit);
}

const BELOW_LIMIT: &[(Call<'static>, Answer, bool)] = &[
    (Call::ClearOutput, DONE, false),
    (Call::NextGlyphs(2), DONE, false),
];

const AT_LIMIT: &[(Call<'static>, Answer, bool)] = &[
    (Call::OutputInfo(GLYPH), DONE, true),
    (Call::OutputInfo(GLYPH), REFUSED, true),
];

/// One glyph of the caller's more than the limit is refused, at any level; levels above 3 act as 0.
#[test]
fn a_glyph_of_the_callers_keeps_to_the_limit() {
    for level in [0, 1, 2, 3, 4, 4_294_967_295] {
        let mut buffer = buffer_of("AB");
        buffer.cluster_level = level;
        make_all(&mut buffer, BELOW_LIMIT);
        set_limit(&mut buffer, 3);
        make_all(&mut buffer, AT_LIMIT);
        assert!(
            (buffer.out_len(), buffer.successful()) == (3, false),
            "{level}"
        );
    }
}

/// Ids are taken as many as are asked for: with fewer nothing is done, and of more the first ones.
const IDS: &[(Call<'static>, Answer, bool)] = &[
    (Call::ClearOutput, DONE, false),
    (Call::ReplaceGlyphs(0, 2, &[7, 8]), DONE, true),
    (Call::ReplaceGlyphs(3, 1, &[9]), OUTSIDE, true),
    (Call::ReplaceGlyphs(1, 2, &[9]), OUTSIDE, true),
    (Call::ReplaceGlyphs(1, 1, &[5, 6]), DONE, true),
];

#[test]
fn ids_are_as_many_as_are_asked_for() {
    let mut buffer = buffer_of("ab");
    make_all(&mut buffer, IDS);
    assert_glyphs(buffer.out_info(), &[(7, 0, 0), (8, 0, 0), (5, 0, 0)]);
    assert_glyphs(buffer.info(), &[(98, 1, 0)]);
}

/// Calls on three glyphs at a level that has no name, what they leave, and the scratch flags.
static UNNAMED: [(Call<'static>, &[Seen], u32); 3] = [
    (
        Call::MergeClusters(0, 2),
        &[(97, 0, 0), (98, 0, 0), (99, 2, 0)],
        0,
    ),
    (
        Call::MergeGraphemeClusters(1, 3),
        &[(97, 0, 0), (98, 1, 0), (99, 1, 0)],
        0,
    ),
    (
        Call::UnsafeToBreak(None, None),
        &[(97, 0, 0), (98, 1, 3), (99, 2, 3)],
        0x20,
    ),
];

/// Asserts what a call leaves of "abc" at a level.
fn assert_left(level: u32, (call, want, scratch_flags): &(Call<'_>, &[Seen], u32)) {
    let mut buffer = buffer_of("abc");
    buffer.cluster_level = level;
    make_one(&mut buffer, *call, DONE, false);
    assert_glyphs(buffer.info(), want);
    let found = (buffer.scratch_flags, buffer.cluster_level);
    assert!(found == (*scratch_flags, level), "{call:?}");
}

/// They act as level 0.
#[test]
fn levels_may_have_no_name() {
    for level in [4, 4_294_967_295] {
        for row in &UNNAMED {
            assert_left(level, row);
        }
    }
}

/// Asserts that the storage has five glyphs, and these at their places.
fn assert_places(buffer: &hb_buffer_t, want: &[(usize, u32)]) {
    assert!(!buffer.have_separate_output());
    let storage = buffer.storage();
    assert!(storage.len() == 5);
    for (place, id) in want {
        assert!(*place < storage.len(), "{id} at {place}");
        assert!(storage[*place].glyph_id == *id, "{id} at {place}");
    }
}

const SKIPPED: &[(Call<'static>, Answer, bool)] = &[
    (Call::ClearOutput, DONE, false),
    (Call::SkipGlyph, DONE, false),
    (Call::NextGlyph, DONE, false),
    (Call::NextGlyph, DONE, false),
    (Call::NextGlyph, DONE, false),
];

#[test]
fn a_rewind_moves_glyphs_up_in_the_vector() {
    let mut buffer = buffer_of("ZABCD");
    make_all(&mut buffer, SKIPPED);
    assert_places(&buffer, &[(0, 65), (1, 66), (2, 67), (4, 68)]);
    make_one(&mut buffer, Call::MoveTo(0), DONE, false);
    assert!((buffer.idx(), buffer.out_len()) == (1, 0));
    assert_places(&buffer, &[(1, 65), (2, 66), (3, 67), (4, 68)]);
}

const REPLACED: &[(Call<'static>, Answer, bool)] = &[
    (Call::ClearOutput, DONE, false),
    (Call::ReplaceGlyphs(2, 1, &[9]), DONE, false),
    (Call::OutputGlyph(7), DONE, false),
    (Call::OutputGlyph(8), DONE, true),
    (Call::Sync, DONE, false),
];

const COPIED: &[(Call<'static>, Answer, bool)] = &[
    (Call::ClearOutput, DONE, false),
    (Call::NextGlyph, DONE, false),
    (Call::CopyGlyph, DONE, true),
    (Call::SkipGlyph, DONE, true),
];

#[test]
fn an_output_is_separate_once_it_is_the_longer() {
    for (calls, len) in [(REPLACED, 3), (COPIED, 2)] {
        let mut buffer = buffer_of("AB");
        make_all(&mut buffer, calls);
        assert!(buffer.len() == len, "the run of {len}");
    }
}

const CALLERS: &[(Call<'static>, Answer, bool)] = &[
    (Call::ClearOutput, DONE, false),
    (Call::OutputInfo(GLYPH), DONE, true),
    (Call::NextGlyphs(2), OUTSIDE, true),
    (Call::NextGlyphs(1), DONE, true),
];

#[test]
fn a_glyph_of_the_callers_is_put_out() {
    let mut buffer = buffer_of("a");
    make_all(&mut buffer, CALLERS);
    assert_glyphs(buffer.out_info(), &[(5, 6, 1), (97, 0, 0)]);
    assert!(buffer.scratch_flags == 0);
}

#[test]
fn calls_and_answers_are_printed_by_name() -> Result<(), Fail> {
    let calls = [
        Call::ClearOutput,
        Call::ReplaceGlyph(7),
        Call::ReplaceGlyphs(2, 1, &[9]),
        Call::UnsafeToBreak(Some(1), None),
    ];
    let printed = String::format(format_args!("{calls:?}"))?;
    assert!(
        printed.as_str()
            == "[ClearOutput, ReplaceGlyph(7), ReplaceGlyphs(2, 1, [9]), UnsafeToBreak(Some(1), None)]"
    );
    let printed = String::format(format_args!("{OUTSIDE:?} {:?}", Stopped { at: 3 }))?;
    assert!(printed.as_str() == "Outside Stopped { at: 3 }");
    Ok(())
}
