// Written by tools/plain_rust from crates/rb_glyph. Do not edit.

//! Sets of flags. The operations of each set are those of the trait `Flags` of the crate `bitflags`, and they speak
//! of a set by the number of its bits.

use crate::bitflags::{Flag, Flags};

/// How the text of a buffer is treated while it is shaped, after HarfBuzz's `hb_buffer_flags_t`.
#[derive(Clone, Copy, Debug, Default)]
pub struct BufferFlags(pub(crate) u32);

impl BufferFlags {
    /// The text of the buffer is the beginning of a paragraph, so nothing stands before it.
    pub const BEGINNING_OF_TEXT: BufferFlags = BufferFlags(0x01);

    /// The text of the buffer is the end of a paragraph, so nothing stands after it.
    pub const END_OF_TEXT: BufferFlags = BufferFlags(0x02);

    /// Characters that are invisible by default are shown by their glyphs.
    pub const PRESERVE_DEFAULT_IGNORABLES: BufferFlags = BufferFlags(0x04);

    /// Characters that are invisible by default leave no glyph.
    pub const REMOVE_DEFAULT_IGNORABLES: BufferFlags = BufferFlags(0x08);

    /// No dotted circle is put under a mark that stands alone.
    pub const DO_NOT_INSERT_DOTTED_CIRCLE: BufferFlags = BufferFlags(0x10);

    /// The shaper checks its own result.
    pub const VERIFY: BufferFlags = BufferFlags(0x20);

    /// The glyph flag `UNSAFE_TO_CONCAT` is wanted.
    pub const PRODUCE_UNSAFE_TO_CONCAT: BufferFlags = BufferFlags(0x40);

    /// The glyph flag `SAFE_TO_INSERT_TATWEEL` is wanted.
    pub const PRODUCE_SAFE_TO_INSERT_TATWEEL: BufferFlags = BufferFlags(0x80);

    /// All flags of the set.
    pub const DEFINED: BufferFlags = BufferFlags(0xFF);

    const FLAGS: &'static [Flag<BufferFlags>] = &[
        Flag {
            name: "BEGINNING_OF_TEXT",
            value: BufferFlags::BEGINNING_OF_TEXT,
        },
        Flag {
            name: "END_OF_TEXT",
            value: BufferFlags::END_OF_TEXT,
        },
        Flag {
            name: "PRESERVE_DEFAULT_IGNORABLES",
            value: BufferFlags::PRESERVE_DEFAULT_IGNORABLES,
        },
        Flag {
            name: "REMOVE_DEFAULT_IGNORABLES",
            value: BufferFlags::REMOVE_DEFAULT_IGNORABLES,
        },
        Flag {
            name: "DO_NOT_INSERT_DOTTED_CIRCLE",
            value: BufferFlags::DO_NOT_INSERT_DOTTED_CIRCLE,
        },
        Flag {
            name: "VERIFY",
            value: BufferFlags::VERIFY,
        },
        Flag {
            name: "PRODUCE_UNSAFE_TO_CONCAT",
            value: BufferFlags::PRODUCE_UNSAFE_TO_CONCAT,
        },
        Flag {
            name: "PRODUCE_SAFE_TO_INSERT_TATWEEL",
            value: BufferFlags::PRODUCE_SAFE_TO_INSERT_TATWEEL,
        },
        Flag {
            name: "DEFINED",
            value: BufferFlags::DEFINED,
        },
    ];
}

///
/// # Proved
///
/// ```text
/// ghost exact = { ⊤ }
/// ghost table = { buffer_table }
/// ghost set_of = { buffer_bits }
/// ```
impl Flags for BufferFlags {
    type Bits = u32;

    fn flags<'a>() -> &'a [Flag<BufferFlags>] {
        BufferFlags::FLAGS
    }

    fn bits(&self) -> u32 {
        self.0
    }

    fn from_bits_retain(bits: u32) -> BufferFlags {
        BufferFlags(bits)
    }
}

/// What the text of shaped glyphs leaves out or adds, after HarfBuzz's `hb_buffer_serialize_flags_t`.
#[derive(Clone, Copy, Debug, Default)]
pub struct SerializeFlags(pub(crate) u8);

impl SerializeFlags {
    /// Clusters are left out.
    pub const NO_CLUSTERS: SerializeFlags = SerializeFlags(1);

    /// Offsets and advances are left out.
    pub const NO_POSITIONS: SerializeFlags = SerializeFlags(2);

    /// Glyphs are written by their numbers alone.
    pub const NO_GLYPH_NAMES: SerializeFlags = SerializeFlags(4);

    /// The extents of each glyph are added.
    pub const GLYPH_EXTENTS: SerializeFlags = SerializeFlags(8);

    /// The flags of each glyph are added.
    pub const GLYPH_FLAGS: SerializeFlags = SerializeFlags(16);

    /// Advances are left out, and offsets count from the start of the line.
    pub const NO_ADVANCES: SerializeFlags = SerializeFlags(32);

    /// All flags of the set.
    pub const DEFINED: SerializeFlags = SerializeFlags(63);

    const FLAGS: &'static [Flag<SerializeFlags>] = &[
        Flag {
            name: "NO_CLUSTERS",
            value: SerializeFlags::NO_CLUSTERS,
        },
        Flag {
            name: "NO_POSITIONS",
            value: SerializeFlags::NO_POSITIONS,
        },
        Flag {
            name: "NO_GLYPH_NAMES",
            value: SerializeFlags::NO_GLYPH_NAMES,
        },
        Flag {
            name: "GLYPH_EXTENTS",
            value: SerializeFlags::GLYPH_EXTENTS,
        },
        Flag {
            name: "GLYPH_FLAGS",
            value: SerializeFlags::GLYPH_FLAGS,
        },
        Flag {
            name: "NO_ADVANCES",
            value: SerializeFlags::NO_ADVANCES,
        },
        Flag {
            name: "DEFINED",
            value: SerializeFlags::DEFINED,
        },
    ];
}

///
/// # Proved
///
/// ```text
/// ghost exact = { ⊤ }
/// ghost table = { serialize_table }
/// ghost set_of = { serialize_bits }
/// ```
impl Flags for SerializeFlags {
    type Bits = u8;

    fn flags<'a>() -> &'a [Flag<SerializeFlags>] {
        SerializeFlags::FLAGS
    }

    fn bits(&self) -> u8 {
        self.0
    }

    fn from_bits_retain(bits: u8) -> SerializeFlags {
        SerializeFlags(bits)
    }
}

/// What is remembered of a character while it is shaped: its general category, and flags.
#[derive(Clone, Copy, Debug, Default)]
pub struct UnicodeProps(pub(crate) u16);

impl UnicodeProps {
    /// The bits that hold the number of the general category.
    pub const GENERAL_CATEGORY: UnicodeProps = UnicodeProps(0x1F);

    /// The character is invisible by default.
    pub const IGNORABLE: UnicodeProps = UnicodeProps(0x20);

    /// The character is invisible, and lookups do not skip it.
    pub const HIDDEN: UnicodeProps = UnicodeProps(0x40);

    /// The character continues the grapheme before it.
    pub const CONTINUATION: UnicodeProps = UnicodeProps(0x80);

    /// The character is the zero width joiner.
    pub const CF_ZWJ: UnicodeProps = UnicodeProps(0x100);

    /// The character is the zero width non-joiner.
    pub const CF_ZWNJ: UnicodeProps = UnicodeProps(0x200);

    /// The character is a variation selector.
    pub const CF_VS: UnicodeProps = UnicodeProps(0x400);

    const FLAGS: &'static [Flag<UnicodeProps>] = &[
        Flag {
            name: "GENERAL_CATEGORY",
            value: UnicodeProps::GENERAL_CATEGORY,
        },
        Flag {
            name: "IGNORABLE",
            value: UnicodeProps::IGNORABLE,
        },
        Flag {
            name: "HIDDEN",
            value: UnicodeProps::HIDDEN,
        },
        Flag {
            name: "CONTINUATION",
            value: UnicodeProps::CONTINUATION,
        },
        Flag {
            name: "CF_ZWJ",
            value: UnicodeProps::CF_ZWJ,
        },
        Flag {
            name: "CF_ZWNJ",
            value: UnicodeProps::CF_ZWNJ,
        },
        Flag {
            name: "CF_VS",
            value: UnicodeProps::CF_VS,
        },
    ];
}

///
/// # Proved
///
/// ```text
/// ghost exact = { ⊤ }
/// ghost table = { unicode_table }
/// ghost set_of = { unicode_bits }
/// ```
impl Flags for UnicodeProps {
    type Bits = u16;

    fn flags<'a>() -> &'a [Flag<UnicodeProps>] {
        UnicodeProps::FLAGS
    }

    fn bits(&self) -> u16 {
        self.0
    }

    fn from_bits_retain(bits: u16) -> UnicodeProps {
        UnicodeProps(bits)
    }
}

/// What is remembered of a glyph while it is shaped: its class in the font's glyph definition table, and what lookups
/// did to it.
#[derive(Clone, Copy, Debug, Default)]
pub struct GlyphPropsFlags(pub(crate) u16);

impl GlyphPropsFlags {
    /// The glyph is a base.
    pub const BASE_GLYPH: GlyphPropsFlags = GlyphPropsFlags(0x02);

    /// The glyph is a ligature.
    pub const LIGATURE: GlyphPropsFlags = GlyphPropsFlags(0x04);

    /// The glyph is a mark.
    pub const MARK: GlyphPropsFlags = GlyphPropsFlags(0x08);

    /// The bits that hold the class.
    pub const CLASS_MASK: GlyphPropsFlags = GlyphPropsFlags(0x0E);

    /// A lookup put this glyph in the place of another.
    pub const SUBSTITUTED: GlyphPropsFlags = GlyphPropsFlags(0x10);

    /// A lookup made this glyph from several.
    pub const LIGATED: GlyphPropsFlags = GlyphPropsFlags(0x20);

    /// A lookup made several glyphs, this one among them, from one.
    pub const MULTIPLIED: GlyphPropsFlags = GlyphPropsFlags(0x40);

    /// The bits that stay when the class is looked up again.
    pub const PRESERVE: GlyphPropsFlags = GlyphPropsFlags(0x70);

    const FLAGS: &'static [Flag<GlyphPropsFlags>] = &[
        Flag {
            name: "BASE_GLYPH",
            value: GlyphPropsFlags::BASE_GLYPH,
        },
        Flag {
            name: "LIGATURE",
            value: GlyphPropsFlags::LIGATURE,
        },
        Flag {
            name: "MARK",
            value: GlyphPropsFlags::MARK,
        },
        Flag {
            name: "CLASS_MASK",
            value: GlyphPropsFlags::CLASS_MASK,
        },
        Flag {
            name: "SUBSTITUTED",
            value: GlyphPropsFlags::SUBSTITUTED,
        },
        Flag {
            name: "LIGATED",
            value: GlyphPropsFlags::LIGATED,
        },
        Flag {
            name: "MULTIPLIED",
            value: GlyphPropsFlags::MULTIPLIED,
        },
        Flag {
            name: "PRESERVE",
            value: GlyphPropsFlags::PRESERVE,
        },
    ];
}

///
/// # Proved
///
/// ```text
/// ghost exact = { ⊤ }
/// ghost table = { glyph_table }
/// ghost set_of = { glyph_props_bits }
/// ```
impl Flags for GlyphPropsFlags {
    type Bits = u16;

    fn flags<'a>() -> &'a [Flag<GlyphPropsFlags>] {
        GlyphPropsFlags::FLAGS
    }

    fn bits(&self) -> u16 {
        self.0
    }

    fn from_bits_retain(bits: u16) -> GlyphPropsFlags {
        GlyphPropsFlags(bits)
    }
}
