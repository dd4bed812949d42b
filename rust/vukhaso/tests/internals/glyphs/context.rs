use crate::Fail;
use vukhaso::internals::glyph_lists::context::{Context, keep_after, keep_before};

#[test]
fn the_first_five_characters_after_a_text_are_kept() -> Result<(), Fail> {
    let mut context = Context::new();
    keep_after(&mut context, "abcdefg");
    assert!(context.as_slice() == ['a', 'b', 'c', 'd', 'e'].as_slice());
    Ok(())
}

#[test]
fn what_was_kept_before_is_gone() -> Result<(), Fail> {
    let mut context = Context::new();
    keep_before(&mut context, "abcdefg");
    keep_before(&mut context, "xy");
    assert!(context.as_slice() == ['y', 'x'].as_slice());
    keep_after(&mut context, "ab");
    assert!(context.as_slice() == ['a', 'b'].as_slice());
    keep_after(&mut context, "");
    assert!(context.is_empty());
    Ok(())
}

#[test]
fn characters_of_every_length_are_read_from_both_ends() -> Result<(), Fail> {
    let mut context = Context::new();
    keep_before(&mut context, "aé€𐌀z");
    assert!(context.as_slice() == ['z', '𐌀', '€', 'é', 'a'].as_slice());
    keep_after(&mut context, "aé€𐌀z");
    assert!(context.as_slice() == ['a', 'é', '€', '𐌀', 'z'].as_slice());
    Ok(())
}

#[test]
fn the_last_five_characters_before_a_text_are_kept_outward() -> Result<(), Fail> {
    let mut context = Context::new();
    keep_before(&mut context, "abcdefg");
    assert!(context.as_slice() == ['g', 'f', 'e', 'd', 'c'].as_slice());
    Ok(())
}
