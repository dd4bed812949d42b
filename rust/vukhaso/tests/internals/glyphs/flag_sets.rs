use vukhaso::internals::glyph::{BufferFlags, GlyphPropsFlags, SerializeFlags, UnicodeProps};

#[test]
fn sets_are_asked_and_changed() {
    let six = BufferFlags::from_bits_retain(6);
    let twelve = BufferFlags::from_bits_retain(12);
    let made = [
        six.intersection(twelve).bits(),
        six.difference(twelve).bits(),
        six.symmetric_difference(twelve).bits(),
        six.complement().bits(),
        BufferFlags::from_bits_truncate(0x106).bits(),
        BufferFlags::from_bits(6).unwrap_or_default().bits(),
        BufferFlags::empty().bits(),
    ];
    assert!(made == [4, 2, 10, 0xF9, 6, 6, 0]);
    assert!(six.intersects(twelve) && !six.contains(twelve));
    assert!(!six.is_empty() && !six.is_all());
    let mut changed = six;
    changed.insert(twelve);
    changed.remove(six);
    changed.toggle(twelve);
    changed.set(BufferFlags::VERIFY, true);
    assert!(changed.bits() == 0x24);
}

#[test]
fn a_set_is_its_bits() {
    let buffer = BufferFlags::VERIFY.union(BufferFlags::PRODUCE_UNSAFE_TO_CONCAT);
    assert!([buffer.bits(), BufferFlags::all().bits()] == [0x60, 0xFF]);
    let serialize = SerializeFlags::NO_CLUSTERS.union(SerializeFlags::NO_GLYPH_NAMES);
    assert!([serialize.bits(), SerializeFlags::all().bits()] == [5, 63]);
    let unicode = UnicodeProps::IGNORABLE.union(UnicodeProps::CF_ZWJ);
    assert!([unicode.bits(), UnicodeProps::all().bits()] == [0x120, 0x7FF]);
    let glyph = GlyphPropsFlags::MARK.union(GlyphPropsFlags::SUBSTITUTED);
    assert!([glyph.bits(), GlyphPropsFlags::all().bits()] == [0x18, 0x7E]);
}
