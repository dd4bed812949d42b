//! The cluster levels by their names and by their numbers.

use vukhaso::internals::buffer::{BufferClusterLevel, UnicodeBuffer};

#[test]
fn levels_have_names_and_numbers() {
    let rows = [
        (BufferClusterLevel::MonotoneGraphemes, 0),
        (BufferClusterLevel::MonotoneCharacters, 1),
        (BufferClusterLevel::Characters, 2),
        (BufferClusterLevel::Graphemes, 3),
    ];
    for (level, number) in rows {
        assert!(level.number() == number, "{number}");
        assert!(BufferClusterLevel::of_number(number) == level, "{number}");
        let mut text = UnicodeBuffer::new();
        text.set_cluster_level(level);
        assert!(text.cluster_level() == level, "{number}");
        assert!(text.into_buffer().cluster_level == number, "{number}");
    }
    for number in [4, 4_294_967_295] {
        let level = BufferClusterLevel::of_number(number);
        assert!(level == BufferClusterLevel::MonotoneGraphemes, "{number}");
    }
}
