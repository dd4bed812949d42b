//! Texts taken apart with fonts that lack a character, as HarfBuzz's `decompose` takes them apart: a second part has to be
//! there, and a first part that is not is taken apart too.

use crate::Fail;
use crate::passes::texts::{assert_characters, buffer_of};
use vukhaso::internals::buffer::Decompositions;
use vukhaso::internals::passes::normalization::{
    FontCharacters, Parts, add_font_parts, decompose_all,
};

static DECOMPOSITIONS: [(char, char, Option<char>); 3] = [
    ('\u{1e63}', 's', Some('\u{323}')),
    ('\u{1e69}', '\u{1e63}', Some('\u{307}')),
    ('\u{212b}', '\u{c5}', None),
];

/// A font that lacks one character.
struct LacksOne<'a> {
    decompositions: &'a Decompositions<'a>,
    lacked: u32,
    takes_fewest: bool,
}

impl FontCharacters for LacksOne<'_> {
    fn has_glyph(&self, character: u32) -> bool {
        character != self.lacked
    }

    fn parts_of(&self, character: u32) -> Option<(u32, u32)> {
        self.decompositions.parts_of(character)
    }

    fn takes_fewest(&self) -> bool {
        self.takes_fewest
    }
}

/// A character, one that a font lacks, whether as few are taken apart as can be, and what stands for the first.
struct Case {
    text: &'static str,
    lacked: char,
    takes_fewest: bool,
    want: &'static str,
}

static CASES: [Case; 8] = [
    // a font that has all
    Case {
        text: "\u{1e69}",
        lacked: 'x',
        takes_fewest: false,
        want: "s\u{323}\u{307}",
    },
    Case {
        text: "\u{1e69}",
        lacked: 'x',
        takes_fewest: true,
        want: "\u{1e69}",
    },
    // the second part is missing
    Case {
        text: "\u{1e69}",
        lacked: '\u{307}',
        takes_fewest: false,
        want: "\u{1e69}",
    },
    // the first part cannot be taken apart
    Case {
        text: "\u{1e69}",
        lacked: '\u{323}',
        takes_fewest: false,
        want: "\u{1e63}\u{307}",
    },
    Case {
        text: "\u{1e69}",
        lacked: 's',
        takes_fewest: false,
        want: "\u{1e63}\u{307}",
    },
    // one step is enough
    Case {
        text: "\u{1e69}",
        lacked: '\u{1e69}',
        takes_fewest: true,
        want: "\u{1e63}\u{307}",
    },
    // what the only part is not there for
    Case {
        text: "\u{212b}",
        lacked: '\u{c5}',
        takes_fewest: false,
        want: "\u{212b}",
    },
    // what has no parts
    Case {
        text: "x",
        lacked: 'x',
        takes_fewest: false,
        want: "x",
    },
];

/// Asserts what stands for the first character.
fn assert_is_taken_apart(font: &LacksOne<'_>, case: &Case) {
    let mut buffer = buffer_of(case.text);
    assert_eq!(decompose_all(&mut buffer, font), Ok(true));
    assert_characters(buffer.info(), case.want, case.want);
}

#[test]
fn characters_are_taken_apart_as_the_font_has_them() -> Result<(), Fail> {
    let table = Decompositions::new(&DECOMPOSITIONS).ok_or("rows that rise")?;
    for case in &CASES {
        let font = LacksOne {
            decompositions: &table,
            lacked: case.lacked as u32,
            takes_fewest: case.takes_fewest,
        };
        assert_is_taken_apart(&font, case);
    }
    Ok(())
}

/// The parts alone, of which there are none where a character stays.
#[test]
fn parts_are_those_of_the_font() -> Result<(), Fail> {
    let table = Decompositions::new(&DECOMPOSITIONS).ok_or("rows that rise")?;
    let mut parts = Parts::new();
    assert!(add_font_parts(&mut parts, &table, 0x1E69));
    assert_eq!(parts.as_slice(), [0x73, 0x323, 0x307].as_slice());
    let mut none = Parts::new();
    assert!(!add_font_parts(&mut none, &table, 0x78));
    assert!(none.is_empty());

    Ok(())
}
