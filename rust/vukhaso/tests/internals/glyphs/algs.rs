use vukhaso::internals::glyph::algs::*;

#[test]
fn words_have_the_bits_that_are_named() {
    let words = [
        rb_flag(0),
        rb_flag(31),
        rb_flag_unsafe(31),
        rb_flag_unsafe(32),
        rb_flag_range(2, 4),
        rb_flag_range(0, 31),
    ];
    let highest = 0x8000_0000;
    assert!(words == [1, highest, highest, 0, 0x1C, 0xFFFF_FFFF]);
    let words = [
        rb_flag64(0),
        rb_flag64(63),
        rb_flag64_unsafe(63),
        rb_flag64_unsafe(64),
    ];
    let highest = 0x8000_0000_0000_0000;
    assert!(words == [1, highest, highest, 0]);
}
