use vukhaso::internals::common::Tag;
use vukhaso::internals::font_tables::directory::{Tables, face_count};

/// A font with two tables: `abcd` with the bytes 1, 2, 3, and `efgh`, which says that it has 100 bytes and has two.
const FONT: &[u8] = &[
    0, 1, 0, 0, 0, 2, 0, 0, 0, 0, 0, 0, // header
    b'a', b'b', b'c', b'd', 0, 0, 0, 0, 0, 0, 0, 44, 0, 0, 0, 3, // first record
    b'e', b'f', b'g', b'h', 0, 0, 0, 0, 0, 0, 0, 47, 0, 0, 0, 100, // second record
    1, 2, 3, 4, 5,
];

/// Tags, and the bytes of their tables.
static TABLES: [(&[u8; 4], &[u8]); 3] = [(b"abcd", &[1, 2, 3]), (b"efgh", &[4, 5]), (b"ijkl", &[])];

/// The table of a font of a file.
fn table_of(file: &'static [u8], font: u32, tag: &[u8; 4]) -> Option<&'static [u8]> {
    Some(Tables::new(file, font)?.table(Tag::from_bytes(tag)))
}

#[test]
fn a_table_has_the_bytes_that_its_record_says() {
    for &(tag, bytes) in &TABLES {
        assert_eq!(table_of(FONT, 7, tag), Some(bytes), "{bytes:?}");
    }
}

/// A collection of two fonts: the first lies nowhere, the second at 20, with one table, `abcd`, of the two bytes behind it.
const COLLECTION: &[u8] = &[
    b't', b't', b'c', b'f', 0, 2, 0, 0, 0, 0, 0, 2, 0, 0, 0, 0, 0, 0, 0, 20, // header
    b'O', b'T', b'T', b'O', 0, 1, 0, 0, 0, 0, 0, 0, // font
    b'a', b'b', b'c', b'd', 0, 0, 0, 0, 0, 0, 0, 48, 0, 0, 0, 2, // record
    8, 9,
];

#[test]
fn a_collection_has_fonts_by_index() {
    assert_eq!(table_of(COLLECTION, 1, b"abcd"), Some([8, 9].as_slice()));
    assert!(table_of(COLLECTION, 0, b"abcd").is_none());
    assert!(table_of(COLLECTION, 2, b"abcd").is_none());
}

/// The heads of files, and how many fonts they have.
static HEADS: [(&[u8], u32); 6] = [
    (FONT, 1),
    (COLLECTION, 2),
    (b"true", 1),
    (b"typ1", 1),
    (b"wOFF", 0),
    (b"", 0),
];

#[test]
fn a_file_has_fonts() {
    for &(file, count) in &HEADS {
        assert_eq!(face_count(file), count, "{file:?}");
    }
}
