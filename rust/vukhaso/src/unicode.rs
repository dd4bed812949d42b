//! Properties of characters, in the place of the kit's crate of this name.

mod general_category;
#[allow(clippy::enum_variant_names)] // the names are Unicode's
mod script;

/// The properties.
pub mod properties {
    pub use super::general_category::GeneralCategory;
    pub use super::script::Script;
}

use general_category::{GENERAL_CATEGORY_RUNS, GeneralCategory};
use script::{SCRIPT_RUNS, Script};

/// How many code points a block has.
const BLOCK: usize = 0x40;

const BLOCKS: usize = 0x11_0000 / BLOCK;

/// For each block the page of its values. Neighbours that lie whole in one run have the same page.
type Pages = [u16; BLOCKS];

static SCRIPT_PAGES: Pages = pages_of(&SCRIPT_RUNS);
static SCRIPTS: [[Script; BLOCK]; page_count(&SCRIPT_RUNS)] = values_of(&SCRIPT_RUNS);
static CATEGORY_PAGES: Pages = pages_of(&GENERAL_CATEGORY_RUNS);
static CATEGORIES: [[GeneralCategory; BLOCK]; page_count(&GENERAL_CATEGORY_RUNS)] =
    values_of(&GENERAL_CATEGORY_RUNS);

/// The run of the code point behind a block, when its first one lies in a run.
const fn run_behind<V: Copy>(runs: &[(u32, V)], block: usize, mut run: usize) -> usize {
    let end = ((block + 1) * BLOCK) as u32;
    while run + 1 < runs.len() && runs[run + 1].0 <= end {
        run += 1;
    }
    run
}

/// Whether a block that begins in a run has the page of the block before it: both lie in that run.
const fn has_page_before<V: Copy>(runs: &[(u32, V)], block: usize, run: usize) -> bool {
    let ends = run + 1 < runs.len() && runs[run + 1].0 < ((block + 1) * BLOCK) as u32;
    !ends && block > 0 && runs[run].0 <= ((block - 1) * BLOCK) as u32
}

const fn pages_of<V: Copy>(runs: &[(u32, V)]) -> Pages {
    let mut pages = [0; BLOCKS];
    let (mut block, mut run) = (0, 0);
    while block < BLOCKS {
        if block > 0 {
            let is_new = !has_page_before(runs, block, run);
            pages[block] = pages[block - 1] + is_new as u16;
        }
        run = run_behind(runs, block, run);
        block += 1;
    }
    pages
}

/// How many pages there are.
const fn page_count<V: Copy>(runs: &[(u32, V)]) -> usize {
    pages_of(runs)[BLOCKS - 1] as usize + 1
}

const fn values_of<V: Copy, const COUNT: usize>(runs: &[(u32, V)]) -> [[V; BLOCK]; COUNT] {
    let pages = pages_of(runs);
    let mut values = [[runs[0].1; BLOCK]; COUNT];
    let (mut block, mut run) = (0, 0);
    while block < BLOCKS {
        if block == 0 || pages[block] != pages[block - 1] {
            values[pages[block] as usize] = page_at(runs, block, run);
        }
        run = run_behind(runs, block, run);
        block += 1;
    }
    values
}

/// The values of a block that begins in a run.
const fn page_at<V: Copy>(runs: &[(u32, V)], block: usize, mut run: usize) -> [V; BLOCK] {
    let mut page = [runs[run].1; BLOCK];
    let mut at = 0;
    while at < BLOCK {
        if run + 1 < runs.len() && runs[run + 1].0 <= (block * BLOCK + at) as u32 {
            run += 1;
        }
        page[at] = runs[run].1;
        at += 1;
    }
    page
}

/// The value of a character.
#[inline]
fn value_of<V: Copy>(pages: &Pages, values: &[[V; BLOCK]], c: char) -> V {
    let code = c as usize;
    values[pages[code / BLOCK] as usize][code % BLOCK]
}

impl Script {
    /// The script of a character.
    #[inline]
    pub fn for_char(c: char) -> Self {
        value_of(&SCRIPT_PAGES, &SCRIPTS, c)
    }
}

impl GeneralCategory {
    /// The general category of a character.
    #[inline]
    pub fn for_char(c: char) -> Self {
        value_of(&CATEGORY_PAGES, &CATEGORIES, c)
    }
}

#[cfg(test)]
mod tests {
    use super::*;

    /// The value by a search of all runs.
    fn searched<V: Copy>(runs: &[(u32, V)], code: u32) -> V {
        runs[runs.partition_point(|run| run.0 <= code) - 1].1
    }

    #[test]
    fn each_character_has_the_value_of_its_run() {
        for c in '\0'..=char::MAX {
            assert_eq!(
                Script::for_char(c),
                searched(&SCRIPT_RUNS, c as u32),
                "{c:?}"
            );
            let category = searched(&GENERAL_CATEGORY_RUNS, c as u32);
            assert_eq!(GeneralCategory::for_char(c), category, "{c:?}");
        }
    }

    #[test]
    fn the_runs_rise_from_0_and_differ_from_their_neighbours() {
        assert_eq!((SCRIPT_RUNS[0].0, GENERAL_CATEGORY_RUNS[0].0), (0, 0));
        assert!(
            SCRIPT_RUNS
                .windows(2)
                .all(|pair| pair[0].0 < pair[1].0 && pair[0].1 != pair[1].1)
        );
        let categories = &GENERAL_CATEGORY_RUNS;
        assert!(
            categories
                .windows(2)
                .all(|pair| pair[0].0 < pair[1].0 && pair[0].1 != pair[1].1)
        );
    }
}
