use vukhaso::internals::text::{Tag, TagExt};

/// Texts, their tags, and the tags in capitals.
static TAGS: [(&str, u32, u32); 7] = [
    ("", 0, 0),
    ("k", 0x6b202020, 0x4b202020),
    ("ke", 0x6b652020, 0x4b452020),
    ("abc", 0x61626320, 0x41424320),
    ("abcd", 0x61626364, 0x41424344),
    ("ABCDE", 0x41424344, 0x41424344),
    ("dflt", 0x64666c74, 0x44464c54),
];

#[test]
fn tags_are_four_bytes() {
    for &(text, number, capital) in &TAGS {
        let tag = Tag::from_bytes_lossy(text.as_bytes());
        let again = Tag::from_bytes(&tag.to_bytes());
        assert!(
            [tag.0, again.as_u32(), tag.to_uppercase().0] == [number, number, capital],
            "{text}"
        );
        assert!(tag.is_null() == text.is_empty(), "{text}");
    }
    let named = [Tag::default_language().0, Tag::default_script().0];
    assert!(named == [0x64666c74, 0x44464c54]);
    assert!(Tag::default().is_null());
}
