use crate::Fail;
use crate::buffer::lists::{assert_ids, buffer_of, clear_positions, read_one};
use crate::buffer::use_steps::{Step, make_all};
use crate::shaping_uses::groups::{count_clusters, reverse_clusters, reverse_with_marks};
use crate::shaping_uses::in_place::rewind_in_place;
use crate::shaping_uses::merging::{cluster_numbers, clusters_of_merged};
use crate::shaping_uses::printing::print_characters;
use crate::shaping_uses::rendering::render_with_ligature;
use crate::shaping_uses::runs::{first_two_as_one, ligate_first_two};
use vukhaso::internals::buffer::{Feature, SerializeFlags, hb_buffer_t, hb_glyph_info_t};
use vukhaso::internals::glyph::NoGlyphNames;
use vukhaso::internals::runs::Answer;
use vukhaso::internals::text::Tag;

fn assert_masks(glyphs: &[hb_glyph_info_t], want: &[u32]) {
    assert!(glyphs.len() == want.len());
    for (glyph, mask) in glyphs.iter().zip(want) {
        assert!(glyph.mask == *mask, "{want:?}");
    }
}

/// With one character or none there are no two glyphs.
#[test]
fn texts_are_rendered() -> Result<(), Fail> {
    let all = [Answer::Done; 3];
    assert_rendered("fib", "9=0+0|98=2+0", &[0, 256], all)?;
    let alone = [Answer::Done, Answer::Outside, Answer::Done];
    assert_rendered("f", "102=0+0", &[0], alone)?;
    assert_rendered("", "", &[], alone)
}

/// The line of a text after a ligature, with a feature from its third byte on, and the answers to the
/// calls.
fn assert_rendered(
    text: &str,
    want: &str,
    masks: &[u32],
    answers: [Answer; 3],
) -> Result<(), Fail> {
    let kern = Feature {
        tag: Tag::from_bytes(b"kern"),
        value: 1,
        start: 2,
        end: u32::MAX,
    };
    match render_with_ligature(text, kern, 9) {
        Ok(rendered) => {
            let glyphs = &rendered.0;
            let line = glyphs.serialize(&NoGlyphNames, SerializeFlags::NO_GLYPH_NAMES)?;
            assert!(line.as_str() == want);
            assert_masks(glyphs.glyph_infos(), masks);
            assert!(rendered.1 == answers);
        }
        Err(_) => panic!("not rendered"),
    }
    Ok(())
}

fn assert_printed(text: &str, want: &str) -> Result<(), Fail> {
    let line = print_characters(text)?.ok_or("short")?;
    assert!(line.as_str() == want);
    Ok(())
}

#[test]
fn texts_are_printed() -> Result<(), Fail> {
    for (text, line) in [("éa", "233=0+0|97=2+0"), ("", "")] {
        assert_printed(text, line)?;
    }
    Ok(())
}

/// The cluster numbers of a text whose first two characters are merged.
fn assert_merged(text: &str, want: &[u32]) -> Result<(), Fail> {
    let numbers = clusters_of_merged(text)?.ok_or("two characters")?;
    assert!(numbers.as_slice() == want);
    Ok(())
}

fn assert_not_merged(text: &str) -> Result<(), Fail> {
    assert!(clusters_of_merged(text)?.is_none());
    Ok(())
}

fn assert_numbers(text: &str, want: &[u32]) -> Result<(), Fail> {
    let numbers = cluster_numbers(buffer_of(text).info())?;
    assert!(numbers.as_slice() == want);
    Ok(())
}

#[test]
fn texts_are_merged() -> Result<(), Fail> {
    assert_merged("abc", &[0, 0, 2])?;
    assert_not_merged("a")?;
    assert_numbers("éa", &[0, 2])?;
    Ok(())
}

/// A ligature has the lower cluster. With one glyph there is none; and in an output that is open it is
/// put out at the cursor.
#[test]
fn ligatures_are_made() {
    let mut buffer = buffer_of("abc");
    assert_ligated(&mut buffer, [Answer::Done; 3], &[7, 99], &[0, 2]);
    let mut buffer = buffer_of("a");
    let alone = [Answer::Done, Answer::Outside, Answer::Done];
    assert_ligated(&mut buffer, alone, &[97], &[0]);
    let mut buffer = buffer_of("abc");
    read_one(&mut buffer);
    let opened = [Answer::Outside, Answer::Done, Answer::Done];
    assert_ligated(&mut buffer, opened, &[97, 7], &[0, 1]);
}

/// The answers to the calls of a ligature, and the glyphs and clusters that they leave.
fn assert_ligated(buffer: &mut hb_buffer_t, answers: [Answer; 3], ids: &[u32], clusters: &[u32]) {
    assert!(ligate_first_two(buffer, 7) == Ok(answers));
    assert_ids(buffer.info(), ids);
    assert_clusters(buffer.info(), clusters);
}

/// After a refusal the ligature is put out, and the output stays open.
#[test]
fn a_refused_ligature_stays_open() {
    let mut buffer = refused("abc");
    let refused = [Answer::Done, Answer::Done, Answer::Refused];
    assert_ligated(&mut buffer, refused, &[99], &[2]);
    assert!(buffer.have_output() && !buffer.successful());
    assert_ids(buffer.out_info(), &[7]);
}

/// A text of which a call was refused: it may not become longer.
fn refused(text: &str) -> hb_buffer_t {
    let mut buffer = buffer_of(text);
    limit(&mut buffer, text.len());
    assert!(buffer.max_len() < 9 && buffer.ensure(9) == Ok(false));
    buffer
}

fn limit(buffer: &mut hb_buffer_t, len: usize) {
    assert!(buffer.len() <= len && buffer.out_len() <= len);
    buffer.set_max_len(len);
}

/// Advances of 10, 20 and so on.
fn set_advances(buffer: &mut hb_buffer_t) {
    clear_positions(buffer);
    assert!(buffer.have_positions());
    for (position, advance) in buffer.pos_mut().iter_mut().zip([10, 20, 30, 40, 50]) {
        position.x_advance = advance;
    }
}

/// The second and third glyph share a cluster.
#[test]
fn clusters_change_places() {
    let mut buffer = buffer_of("abcd");
    merge_middle(&mut buffer);
    set_advances(&mut buffer);
    assert_cluster_count(&buffer, 3);
    reverse(&mut buffer);
    assert_ids(buffer.info(), &[100, 98, 99, 97]);
    assert_clusters(buffer.info(), &[3, 1, 1, 0]);
    assert_advances(&buffer, &[40, 20, 30, 10]);
    assert_cluster_count(&hb_buffer_t::new(), 0);
}

fn reverse(buffer: &mut hb_buffer_t) {
    assert!(!buffer.have_output());
    reverse_clusters(buffer);
}

fn merge_middle(buffer: &mut hb_buffer_t) {
    assert!(!buffer.have_output() && buffer.len() == 4);
    buffer.merge_clusters(1, 3);
}

fn assert_cluster_count(buffer: &hb_buffer_t, want: usize) {
    assert!(!buffer.have_output());
    assert!(count_clusters(buffer) == want);
}

/// A combining acute accent stays behind its base, and where groups are merged it is in the base's
/// cluster.
#[test]
fn marks_stay_behind_their_bases() {
    assert_reversed(false, &[4, 1, 2, 0]);
    assert_reversed(true, &[4, 1, 1, 0]);
}

fn assert_reversed(merge: bool, clusters: &[u32]) {
    let mut buffer = buffer_of("ae\u{301}b");
    set_advances(&mut buffer);
    reverse_marked(&mut buffer, merge);
    assert_ids(buffer.info(), &[98, 101, 0x301, 97]);
    assert_clusters(buffer.info(), clusters);
    assert_advances(&buffer, &[40, 20, 30, 10]);
}

fn reverse_marked(buffer: &mut hb_buffer_t, merge: bool) {
    assert!(!buffer.have_output());
    reverse_with_marks(buffer, &[0x300, 0x301], merge);
}

fn assert_clusters(glyphs: &[hb_glyph_info_t], want: &[u32]) {
    assert!(glyphs.len() == want.len());
    for (glyph, cluster) in glyphs.iter().zip(want) {
        assert!(glyph.cluster == *cluster, "{want:?}");
    }
}

fn assert_advances(buffer: &hb_buffer_t, want: &[i32]) {
    assert!(buffer.have_positions());
    assert!(buffer.pos().len() == want.len());
    for (position, advance) in buffer.pos().iter().zip(want) {
        assert!(position.x_advance == *advance, "{want:?}");
    }
}

/// A text, steps over it, and the ids that they leave.
static RUNS: [(&str, &[Step], &[u32]); 3] = [
    // one is dropped, four are put out, two of them taken back, and the output is closed
    (
        "abcde",
        &[
            Step::ClearOutput,
            Step::SkipGlyph,
            Step::NextInPlace,
            Step::ReplaceInPlace(7),
            Step::NextGlyphsInPlace(2),
            Step::MoveInPlace(2),
            Step::SyncInPlace,
        ],
        &[98, 7, 100, 101],
    ),
    // each f and the i behind it give way to one glyph, and no others
    ("fifaif", &[Step::Ligate], &[0xFB01, 102, 97, 105, 102]),
    // the second glyph goes, and the fourth, and no others
    ("abcde", &[Step::DeleteEverySecond], &[97, 99, 101]),
];

/// The clusters of what the runs leave.
static CLUSTERS: [&[u32]; 3] = [&[1, 2, 3, 4], &[0, 2, 3, 4, 5], &[0, 2, 4]];

#[test]
fn runs_leave_glyphs_in_their_clusters() {
    for ((text, steps, ids), clusters) in RUNS.iter().zip(&CLUSTERS) {
        let mut buffer = buffer_of(text);
        make_all(&mut buffer, steps);
        assert_ids(buffer.info(), ids);
        assert_clusters(buffer.info(), clusters);
    }
}

/// Of a list of four glyphs or more one is dropped, three are put out and taken back, and the output is
/// closed. Of three glyphs none is touched.
fn rewind(buffer: &mut hb_buffer_t, answers: Option<[Answer; 7]>) {
    assert!(!buffer.have_output() && buffer.successful());
    assert!(rewind_in_place(buffer) == answers);
}

#[test]
fn a_list_in_place_is_done() {
    let mut buffer = buffer_of("abcde");
    rewind(&mut buffer, Some([Answer::Done; 7]));
    assert!(!buffer.have_output() && buffer.idx() == 0);
    assert_ids(buffer.info(), &[98, 99, 100, 101]);
    let mut buffer = buffer_of("abc");
    rewind(&mut buffer, None);
    assert_ids(buffer.info(), &[97, 98, 99]);
}

#[test]
fn marks_are_put_in() {
    let mut buffer = buffer_of("ab");
    make_all(&mut buffer, &[Step::PutMarks(9)]);
    assert!(buffer.room() == 4);
    assert_ids(buffer.info(), &[9, 97, 9, 98]);
    make_all(&mut buffer, &[Step::Ensure(8), Step::PutMarksWithinRoom(8)]);
    assert_ids(buffer.info(), &[8, 9, 8, 97, 8, 9, 8, 98]);
}

#[test]
fn the_first_two_become_one() {
    for (text, done) in [("ab", true), ("a", false)] {
        assert!(first_two_as_one(text) == Ok(done), "{text}");
    }
}
