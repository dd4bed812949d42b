//! Runs of marks: where one ends, and what one becomes whose marks are put in order (the Unicode Standard, section 3.11).

use crate::Fail;
use crate::passes::texts::{assert_characters, buffer_of};
use vukhaso::internals::buffer::{CombiningClasses, hb_buffer_t, hb_glyph_info_t};
use vukhaso::internals::passes::normalization::{MOST_MARKS, MarkClasses, order_run, run_end};
use vukhaso::internals::passes::order_marks;
use vukhaso::memory::String;

static CLASSES: [(char, u8); 3] = [('\u{301}', 230), ('\u{315}', 232), ('\u{323}', 220)];

/// Two runs, of two marks and of one.
const TWO_RUNS: &str = "a\u{315}\u{301}bc\u{323}";

/// Places in that text, and where the run ends that begins there; at a starter none does.
static ENDS: [(usize, usize); 7] = [(0, 0), (1, 3), (2, 3), (3, 3), (4, 4), (5, 6), (6, 6)];

/// A text, the run of marks that is put in order, and what the text becomes.
struct Row {
    name: &'static str,
    text: &'static str,
    start: usize,
    end: usize,
    want: &'static str,
}

static ROWS: [Row; 4] = [
    Row {
        name: "marks stand in the order of their classes",
        text: "a\u{315}\u{301}\u{323}b",
        start: 1,
        end: 4,
        want: "a\u{323}\u{301}\u{315}b",
    },
    Row {
        name: "marks of one class stay in their order",
        text: "a\u{301}\u{315}\u{301}\u{323}b",
        start: 1,
        end: 5,
        want: "a\u{323}\u{301}\u{301}\u{315}b",
    },
    Row {
        name: "a mark before the run stays, though it is of a higher class",
        text: "\u{315}\u{301}\u{323}",
        start: 1,
        end: 3,
        want: "\u{315}\u{323}\u{301}",
    },
    Row {
        name: "a mark behind the run stays, though it is of a lower class",
        text: "\u{315}\u{301}\u{323}",
        start: 0,
        end: 2,
        want: "\u{301}\u{315}\u{323}",
    },
];

/// Classes that a shaper has of its own: this mark goes before any other.
struct First<'a> {
    mark: u32,
    others: &'a CombiningClasses<'a>,
}

impl MarkClasses for First<'_> {
    fn class_of(&self, info: &hb_glyph_info_t) -> u16 {
        if info.glyph_id == self.mark {
            1
        } else {
            self.others.class_of(info)
        }
    }
}

/// Puts the run from one place to another in order.
fn order<C: MarkClasses>(buffer: &mut hb_buffer_t, classes: &C, start: usize, end: usize) {
    assert!(!buffer.have_output());
    assert!(start < end);
    assert!(end <= buffer.info().len());
    order_run(buffer, classes, start, end);
}

#[test]
fn runs_end_at_starters() -> Result<(), Fail> {
    let classes = CombiningClasses::new(&CLASSES).ok_or("rows that rise")?;
    let buffer = buffer_of(TWO_RUNS);
    for (start, end) in &ENDS {
        assert!(*start <= buffer.info().len(), "from {start}");
        assert_eq!(
            run_end(buffer.info(), &classes, *start),
            *end,
            "from {start}"
        );
    }
    Ok(())
}

#[test]
fn runs_are_put_in_order() -> Result<(), Fail> {
    let classes = CombiningClasses::new(&CLASSES).ok_or("rows that rise")?;
    for row in &ROWS {
        let mut buffer = buffer_of(row.text);
        order(&mut buffer, &classes, row.start, row.end);
        assert_characters(buffer.info(), row.want, row.name);
    }
    Ok(())
}

/// A shaper's own classes are asked in place of those of Unicode.
#[test]
fn a_shaper_may_have_its_own_classes() -> Result<(), Fail> {
    let classes = CombiningClasses::new(&CLASSES).ok_or("rows that rise")?;
    let first = First {
        mark: 0x315,
        others: &classes,
    };
    let mut buffer = buffer_of("a\u{323}\u{301}\u{315}");
    order(&mut buffer, &first, 1, 4);
    let wanted = "a\u{315}\u{323}\u{301}";
    assert_characters(buffer.info(), wanted, "the last mark");
    Ok(())
}

/// Eight marks.
const ACUTES: &str = "\u{301}\u{301}\u{301}\u{301}\u{301}\u{301}\u{301}\u{301}";

const BELOW: &str = "\u{323}";

/// Asserts that `order_marks` leaves a run as it is.
fn assert_stays(classes: &CombiningClasses<'_>, long: &str) {
    let mut buffer = buffer_of(long);
    assert_eq!(buffer.info().len(), MOST_MARKS + 1);
    order_marks(&mut buffer, classes);
    assert_characters(buffer.info(), long, "a long run");
}

/// Asserts that `order_run` puts a run of 33 marks in order.
fn assert_is_put_in_order(classes: &CombiningClasses<'_>, long: &str, want: &str) {
    let mut buffer = buffer_of(long);
    order(&mut buffer, classes, 0, 33);
    assert_characters(buffer.info(), want, "one that is put in order");
}

/// A run of 33 marks is put in order by `order_run`, and stays as it is in a text that `order_marks`
/// puts in order.
#[test]
fn long_runs_stay_as_they_are() -> Result<(), Fail> {
    let classes = CombiningClasses::new(&CLASSES).ok_or("rows that rise")?;
    let long = String::format(format_args!("{ACUTES}{ACUTES}{ACUTES}{ACUTES}{BELOW}"))?;
    let in_order = String::format(format_args!("{BELOW}{ACUTES}{ACUTES}{ACUTES}{ACUTES}"))?;
    assert_stays(&classes, &long);
    assert_is_put_in_order(&classes, &long, &in_order);
    Ok(())
}
