//! The data of normalization, in the place of the kit's crate of this name.

mod tables;

use tables::{CLASSES, COMPOSITIONS, DECOMPOSITIONS};

/// How many code points a block has.
const BLOCK: usize = 0x20;

/// How many blocks there are up to the last character that has a class of its own, or that composes or decomposes.
const BLOCKS: usize = 0x2_FA20 / BLOCK;

/// For each block its first row, and behind them how many rows there are.
type Index = [u16; BLOCKS + 1];

static DECOMPOSITION_INDEX: Index = decomposition_index();
static COMPOSITION_INDEX: Index = composition_index();

const fn decomposition_index() -> Index {
    let mut index = [0; BLOCKS + 1];
    let (mut block, mut row) = (0, 0);
    while block <= BLOCKS {
        while row < DECOMPOSITIONS.len() && (DECOMPOSITIONS[row].0 as usize) < block * BLOCK {
            row += 1;
        }
        index[block] = row as u16;
        block += 1;
    }
    index
}

const fn composition_index() -> Index {
    let mut index = [0; BLOCKS + 1];
    let (mut block, mut row) = (0, 0);
    while block <= BLOCKS {
        while row < COMPOSITIONS.len() && (COMPOSITIONS[row].0.0 as usize) < block * BLOCK {
            row += 1;
        }
        index[block] = row as u16;
        block += 1;
    }
    index
}

/// The rows of the block of a character.
#[inline]
fn rows_near<'a, R>(rows: &'a [R], index: &Index, c: char) -> &'a [R] {
    let block = c as usize / BLOCK;
    if block >= BLOCKS {
        return &[];
    }
    &rows[index[block] as usize..index[block + 1] as usize]
}

/// For each block the page of its classes; the first page is that of blocks whose classes are all 0.
static CLASS_PAGES: [u8; BLOCKS] = class_pages();

static CLASS_VALUES: [[u8; BLOCK]; class_page_count()] = class_values();

const fn class_pages() -> [u8; BLOCKS] {
    let mut pages = [0; BLOCKS];
    let (mut row, mut count) = (0, 0);
    while row < CLASSES.len() {
        let (first, last, _) = CLASSES[row];
        let mut block = first as usize / BLOCK;
        while block <= last as usize / BLOCK {
            if pages[block] == 0 {
                count += 1;
                pages[block] = count;
            }
            block += 1;
        }
        row += 1;
    }
    pages
}

const fn class_page_count() -> usize {
    let pages = class_pages();
    let (mut block, mut most) = (0, 0);
    while block < BLOCKS {
        if pages[block] > most {
            most = pages[block];
        }
        block += 1;
    }
    most as usize + 1
}

const fn class_values() -> [[u8; BLOCK]; class_page_count()] {
    let pages = class_pages();
    let mut values = [[0; BLOCK]; class_page_count()];
    let mut row = 0;
    while row < CLASSES.len() {
        let (first, last, class) = CLASSES[row];
        let mut code = first as usize;
        while code <= last as usize {
            values[pages[code / BLOCK] as usize][code % BLOCK] = class;
            code += 1;
        }
        row += 1;
    }
    values
}

/// The canonical combining class of a character.
#[inline]
pub fn canonical_combining_class(c: char) -> u8 {
    let code = c as usize;
    match CLASS_PAGES.get(code / BLOCK) {
        Some(page) => CLASS_VALUES[*page as usize][code % BLOCK],
        None => 0,
    }
}

/// The full canonical decomposition of a character, which is empty where it has none.
#[inline]
pub fn canonical_decomposition(c: char) -> &'static [char] {
    let near = rows_near(&DECOMPOSITIONS, &DECOMPOSITION_INDEX, c);
    if near.is_empty() {
        return &[];
    }
    let found = near.binary_search_by_key(&c, |row| row.0);
    found.map_or(&[], |at| near[at].1)
}

/// The primary composite of two characters, without Hangul syllables.
#[inline]
pub fn composite(a: char, b: char) -> Option<char> {
    let near = rows_near(&COMPOSITIONS, &COMPOSITION_INDEX, a);
    if near.is_empty() {
        return None;
    }
    let found = near.binary_search_by_key(&(a, b), |row| row.0);
    found.ok().map(|at| near[at].1)
}

#[cfg(test)]
mod tests {
    use super::*;

    #[test]
    fn each_character_has_the_class_and_the_parts_of_its_row() {
        for c in '\0'..=char::MAX {
            let class = CLASSES
                .iter()
                .find(|row| row.0 <= c as u32 && c as u32 <= row.1);
            assert_eq!(
                canonical_combining_class(c),
                class.map_or(0, |row| row.2),
                "{c:?}"
            );
            let parts = DECOMPOSITIONS.binary_search_by_key(&c, |row| row.0);
            let parts = parts.map_or(&[][..], |at| DECOMPOSITIONS[at].1);
            assert_eq!(canonical_decomposition(c), parts, "{c:?}");
        }
    }

    #[test]
    fn each_pair_composes_to_what_its_row_says() {
        for ((a, b), whole) in COMPOSITIONS {
            assert_eq!(composite(a, b), Some(whole), "{a:?} {b:?}");
            assert_eq!(composite(a, '\0'), None);
            assert_eq!(composite(a, char::MAX), None);
        }
        assert_eq!(composite(char::MAX, '\u{301}'), None);
    }
}
