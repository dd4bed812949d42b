//! Each allocation refused in turn, by the global allocator of this test: a call that runs out of memory has changed
//! nothing, and is then made again. The scenarios are those of the program `fault_tests`, written by
//! `tools/plain_rust`.
#![allow(unused_imports, unused_variables, dead_code)]

use allocator::refusing;
use fault_tests::growth::GROWTHS;
use fault_tests::rendered::RENDERED;
use fault_tests::runs::in_place::IN_PLACE;
use fault_tests::runs::separate::{BECOMING, SEPARATE_RUNS};
use fault_tests::runs::whole::WHOLE;
use fault_tests::runs::within_room::WITHIN_ROOM;
use fault_tests::said::{Made, Tags, Told};
use fault_tests::scenario::Scenario;
use fault_tests::written::Written;

mod allocator;
mod more;

#[allow(clippy::needless_question_mark)] // written code
#[path = "../../examples/lines/shaping_session/mod.rs"]
mod shaping_session;

mod fault_tests {
    pub mod beginning;
    pub mod growth;
    pub mod rendered;
    pub mod run;
    pub mod runs;
    pub mod said;
    pub mod scenario;
    pub mod seen;
    pub mod written;
}

/// Refuses each allocation of a scenario's calls in turn, until there is none that was refused.
fn watch_each<S: Scenario>(scenario: &S) {
    let name = scenario.name();
    let mut count = 0;
    loop {
        let ready = scenario.prepare().expect(name);
        let (outcome, refused) = refusing(count, || scenario.watch(ready));
        assert_eq!(outcome, Ok(()), "{name}, allocation {count}");
        if !refused {
            break;
        }
        count += 1;
    }
    let least = scenario.least() as usize;
    let fits = if least == 0 {
        count == 0
    } else {
        count >= least
    };
    assert!(fits, "{name}: {count} allocations, and not {least} or more");
}

#[test]
fn growing_texts_and_rendering() {
    GROWTHS.iter().for_each(watch_each);
    RENDERED.iter().for_each(watch_each);
}

#[test]
fn lists_of_calls() {
    for runs in [
        &IN_PLACE[..],
        &BECOMING,
        &SEPARATE_RUNS,
        &WITHIN_ROOM,
        &WHOLE,
    ] {
        runs.iter().for_each(watch_each);
    }
}

#[test]
fn texts_of_glyphs_languages_and_tags() {
    watch_each(&Written);
    watch_each(&Made);
    watch_each(&Told);
    watch_each(&Tags);
}
