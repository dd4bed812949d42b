use crate::buffer::lists::{add, clear_positions};
use crate::buffer_tests::probes::counters::*;
use vukhaso::internals::buffer::{_cluster_group_func, UnicodeBuffer, hb_buffer_t};

/// A text from `a` on, of these clusters and masks, with advances of 10, 20 and so on.
fn buffer_of(glyphs: &[(u32, u32)]) -> hb_buffer_t {
    let mut characters = UnicodeBuffer::new();
    for (character, (cluster, _)) in "abcde".chars().zip(glyphs) {
        add(&mut characters, character, *cluster);
    }
    let mut buffer = characters.into_buffer();
    set_masks(&mut buffer, glyphs);
    clear_positions(&mut buffer);
    set_advances(&mut buffer);
    buffer
}

fn set_masks(buffer: &mut hb_buffer_t, glyphs: &[(u32, u32)]) {
    assert!(!buffer.have_output());
    for (glyph, (_, mask)) in buffer.info_slice_mut().iter_mut().zip(glyphs) {
        glyph.mask = *mask;
    }
}

fn set_advances(buffer: &mut hb_buffer_t) {
    assert!(buffer.have_positions());
    for (pos, advance) in buffer.pos_mut().iter_mut().zip([10, 20, 30, 40, 50]) {
        pos.x_advance = advance;
    }
}

/// Asserts the id, the cluster, the mask and the advance of each glyph, and where the cursor is.
fn assert_list(name: &str, buffer: &hb_buffer_t, want: &[(u32, u32, u32, i32)]) {
    assert!(buffer.have_positions(), "{name}");
    assert!((buffer.idx(), buffer.len()) == (0, want.len()), "{name}");
    for ((glyph, pos), want) in buffer.info().iter().zip(buffer.pos()).zip(want) {
        let found = (glyph.glyph_id, glyph.cluster, glyph.mask, pos.x_advance);
        assert!(found == *want, "{name}");
    }
}

fn reverse_range(buffer: &mut hb_buffer_t, start: usize, end: usize) {
    assert!(!buffer.have_output() && start <= end && end <= buffer.len());
    buffer.reverse_range(start, end);
}

fn reverse_clusters(buffer: &mut hb_buffer_t) {
    assert!(!buffer.have_output());
    buffer.reverse_groups(_cluster_group_func, false);
}

/// Reverses groups that go on at the glyph `id`, and nowhere else, merged.
fn reverse_merged(buffer: &mut hb_buffer_t, id: u32) {
    assert!(!buffer.have_output());
    buffer.reverse_groups(|_, next| next.glyph_id == id, true);
}

/// Deletes the glyphs with these ids.
fn delete(buffer: &mut hb_buffer_t, ids: &[u32]) {
    assert!(!buffer.have_output());
    buffer.delete_glyphs_inplace(|glyph| ids.contains(&glyph.glyph_id));
}

fn reverse(buffer: &mut hb_buffer_t) {
    assert!(!buffer.have_output());
    buffer.reverse();
}

fn skip(buffer: &mut hb_buffer_t) {
    assert!(buffer.lookahead_len() > 0);
    buffer.skip_glyph();
}

/// The text at a cluster level.
fn buffer_at(level: u32, glyphs: &[(u32, u32)]) -> hb_buffer_t {
    let mut buffer = buffer_of(glyphs);
    buffer.cluster_level = level;
    buffer
}

/// Asserts whether the scratch flag says that there are glyph flags.
fn assert_told(buffer: &hb_buffer_t, told: bool) {
    assert!(buffer.scratch_flags == (if told { 32 } else { 0 }));
}

#[test]
fn positions_follow_reversals() {
    let mut buffer = buffer_of(&[(0, 1), (1, 2), (2, 3)]);
    reverse(&mut buffer);
    assert_list(
        "the whole list",
        &buffer,
        &[(99, 2, 3, 30), (98, 1, 2, 20), (97, 0, 1, 10)],
    );
    reverse_range(&mut buffer, 1, 3);
    assert_list(
        "a range",
        &buffer,
        &[(99, 2, 3, 30), (97, 0, 1, 10), (98, 1, 2, 20)],
    );
}

#[test]
fn groups_change_places() {
    let mut buffer = buffer_of(&[(0, 0), (0, 0), (1, 0), (2, 0), (2, 0)]);
    reverse_clusters(&mut buffer);
    let reversed = [
        (100, 2, 0, 40),
        (101, 2, 0, 50),
        (99, 1, 0, 30),
        (97, 0, 0, 10),
        (98, 0, 0, 20),
    ];
    assert_list("clusters", &buffer, &reversed);
    reverse_merged(&mut buffer, 0);
    let as_before = [
        (98, 0, 0, 20),
        (97, 0, 0, 10),
        (99, 1, 0, 30),
        (101, 2, 0, 50),
        (100, 2, 0, 40),
    ];
    assert_list("glyph by glyph", &buffer, &as_before);
}

/// Glyphs at a cluster level, and what a call leaves of them.
struct Row<'a> {
    name: &'a str,
    level: u32,
    glyphs: &'a [(u32, u32)],
    want: &'a [(u32, u32, u32, i32)],
}

const RISING: &[(u32, u32)] = &[(0, 0), (1, 0), (2, 0)];

/// Groups that go on at `b`, merged.
static MERGED: [Row<'static>; 3] = [
    Row {
        name: "two clusters become one",
        level: 0,
        glyphs: RISING,
        want: &[(99, 2, 0, 30), (97, 0, 0, 10), (98, 0, 0, 20)],
    },
    Row {
        name: "the run of the last goes along",
        level: 0,
        glyphs: &[(0, 0), (1, 0), (1, 0)],
        want: &[(99, 0, 0, 30), (97, 0, 0, 10), (98, 0, 0, 20)],
    },
    Row {
        name: "at level 2 they are marked",
        level: 2,
        glyphs: RISING,
        want: &[(99, 2, 0, 30), (97, 0, 0, 10), (98, 1, 3, 20)],
    },
];

#[test]
fn groups_are_merged() {
    for row in &MERGED {
        let mut buffer = buffer_at(row.level, row.glyphs);
        reverse_merged(&mut buffer, 98);
        assert_list(row.name, &buffer, row.want);
        assert_told(&buffer, row.level == 2);
    }
}

/// What deletion of one glyph leaves, after the cursor was moved; then none is deleted, and then all.
fn assert_deleted(id: u32, row: &Row<'_>) {
    let mut buffer = buffer_at(row.level, row.glyphs);
    skip(&mut buffer);
    delete(&mut buffer, &[id]);
    assert_list(row.name, &buffer, row.want);
    assert_told(&buffer, row.level == 2);
    delete(&mut buffer, &[]);
    assert_list(row.name, &buffer, row.want);
    delete(&mut buffer, &[97, 98, 99]);
    assert_list(row.name, &buffer, &[]);
}

static FIRST_DELETED: [Row<'static>; 2] = [
    Row {
        name: "the next glyph takes the lower cluster",
        level: 0,
        glyphs: RISING,
        want: &[(98, 0, 0, 20), (99, 2, 0, 30)],
    },
    Row {
        name: "at level 2 the next glyph is marked",
        level: 2,
        glyphs: RISING,
        want: &[(98, 1, 3, 20), (99, 2, 0, 30)],
    },
];

static SECOND_DELETED: [Row<'static>; 2] = [
    Row {
        name: "the glyph before takes the lower cluster",
        level: 0,
        glyphs: &[(2, 0), (1, 0), (0, 0)],
        want: &[(97, 1, 0, 10), (99, 0, 0, 30)],
    },
    Row {
        name: "and the flags of the deleted glyph",
        level: 0,
        glyphs: &[(2, 8), (1, 3), (0, 0)],
        want: &[(97, 1, 11, 10), (99, 0, 0, 30)],
    },
];

#[test]
fn glyphs_are_deleted_in_place() {
    for row in &FIRST_DELETED {
        assert_deleted(97, row);
    }
    for row in &SECOND_DELETED {
        assert_deleted(98, row);
    }
}

/// Where the group and the syllable of a glyph end.
fn assert_ends(buffer: &hb_buffer_t, start: usize, group: usize, syllable: usize) {
    assert!(!buffer.have_output() && start < buffer.len());
    let end = buffer.group_end(start, _cluster_group_func);
    assert!((end, buffer.next_syllable(start)) == (group, syllable));
}

fn set_syllables(buffer: &mut hb_buffer_t, syllables: &[u8]) {
    assert!(!buffer.have_output());
    for (glyph, syllable) in buffer.info_slice_mut().iter_mut().zip(syllables) {
        glyph.set_syllable(*syllable);
    }
}

#[test]
fn groups_and_syllables_end() {
    let mut buffer = buffer_of(&[(0, 0), (0, 0), (1, 0)]);
    set_syllables(&mut buffer, &[1, 2, 2]);
    assert_ends(&buffer, 0, 2, 1);
    assert_ends(&buffer, 1, 2, 3);
    assert_ends(&buffer, 2, 3, 3);
    assert!(!buffer.have_output());
    assert!(buffer.next_syllable(5) == 5);
}

#[test]
fn an_empty_list_stays_empty() {
    let mut plain = hb_buffer_t::new();
    reverse(&mut plain);
    reverse_range(&mut plain, 0, 0);
    reverse_clusters(&mut plain);
    delete(&mut plain, &[97]);
    assert!(!plain.have_positions());
    assert_eq!(plain.len(), 0);
}

/// Five glyphs, positions and all.
fn five(level: u32) -> hb_buffer_t {
    buffer_at(level, &[(0, 1), (0, 2), (3, 3), (1, 0), (1, 7)])
}

/// A group ends after its start and in the list.
fn assert_group_ends(buffer: &hb_buffer_t, start: usize, every: u32) {
    assert!(!buffer.have_output() && start < buffer.len());
    let end = end_by_a_counter(buffer, start, every);
    assert!(start < end && end <= buffer.len());
}

/// A reversal keeps the length.
fn assert_reversal_keeps(mut buffer: hb_buffer_t, every: u32, merge: bool) {
    assert!(!buffer.have_output());
    reverse_by_a_counter(&mut buffer, every, merge);
    assert!(buffer.len() == 5 && buffer.successful() && !buffer.have_output());
}

/// A deletion never raises the length.
fn assert_deletion_lowers(mut buffer: hb_buffer_t, every: u32) {
    assert!(!buffer.have_output());
    delete_by_a_counter(&mut buffer, every);
    assert!(buffer.len() <= 5 && buffer.successful() && !buffer.have_output());
}

#[test]
fn closures_may_answer_by_a_counter() {
    for every in 0..6 {
        for level in 0..4 {
            let buffer = five(level);
            for start in 0..5 {
                assert_group_ends(&buffer, start, every);
            }
            assert_reversal_keeps(buffer, every, false);
            assert_reversal_keeps(five(level), every, true);
            assert_deletion_lowers(five(level), every);
        }
    }
}
