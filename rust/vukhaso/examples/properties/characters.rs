//! Categories and scripts of characters, and how their classes are changed.

use crate::runs::{print_property, print_ranges};
use std::io::{self, Write};
use vukhaso::internals::glyph::{CharExt, CombiningClasses, GeneralCategoryExt};

/// Prints the category and the script of each character, the class that it has of its own, and what classes are changed to.
pub fn print_characters(out: &mut impl Write) -> io::Result<()> {
    print_property(out, "category", |c| c.general_category().to_rb())?;
    print_property(out, "script", |c| c.script().tag().0)?;
    print_property(out, "own_class", own_class)?;
    print_ranges(out, "changed_class", 0, 256, changed_class)
}

/// The class of a character in a table with no rows.
fn own_class(c: char) -> u32 {
    match CombiningClasses::new(&[]) {
        Some(none) => c.modified_combining_class(&none) as u32,
        None => 0,
    }
}

/// What a canonical combining class is changed to, asked of a table with one row.
fn changed_class(class: u32) -> u32 {
    let Ok(class) = u8::try_from(class) else {
        return 0;
    };
    match CombiningClasses::new(&[('a', class)]) {
        Some(classes) => 'a'.modified_combining_class(&classes) as u32,
        None => 0,
    }
}
