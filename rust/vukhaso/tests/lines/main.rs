//! The example's lines: the stored run of the proved program, rows of calls, random programs beside it, lines that are no
//! commands, streams that are slow or fail, and how the program ends.
#![allow(dead_code, unused_variables)]

use shaping_session::run::run_on;
use std::env;
use std::fs;
use std::path::PathBuf;

#[allow(clippy::needless_question_mark)] // written code
#[path = "../../examples/lines/shaping_session/mod.rs"]
mod shaping_session;

#[path = "../../examples/lines/ending.rs"]
mod program;

mod ending;
mod streams;
mod unknown;

/// What the session answers to these lines, and its status.
fn answers(mut lines: &[u8]) -> (Vec<u8>, u8) {
    let mut written = Vec::new();
    let status = run_on(&mut lines, &mut written).expect("memory, and a stream that reads");
    (written, status)
}

/// Asserts that two texts are the same, byte by byte, and names the first line that differs.
fn assert_same(lines: &[u8], ours: &[u8], theirs: &[u8]) {
    let parts = |bytes: &[u8]| {
        String::from_utf8_lossy(bytes)
            .lines()
            .map(str::to_owned)
            .collect::<Vec<_>>()
    };
    for ((line, our), their) in parts(lines).iter().zip(parts(ours)).zip(parts(theirs)) {
        assert_eq!(our, their, "the answer to `{line}`");
    }
    assert_eq!(ours.len(), theirs.len());
    assert!(ours == theirs);
}

/// Each worked row of the stored run: the last line is no command, which ends it with status 2.
#[test]
fn the_stored_run_is_answered_as_by_the_proved_program() {
    let lines = include_bytes!("../stored_run/stdin");
    let (ours, status) = answers(lines);
    assert_same(lines, &ours, include_bytes!("../stored_run/stdout"));
    assert_eq!(status, 2);
}

/// The files of rows, by their names.
fn files_of_rows() -> Vec<PathBuf> {
    let folder = concat!(env!("CARGO_MANIFEST_DIR"), "/tests/rows");
    let files = fs::read_dir(folder).expect("the folder of rows");
    let mut files = files
        .map(|file| file.expect("a file of rows").path())
        .collect::<Vec<_>>();
    files.sort();
    files
}

/// Each row of calls, `line -> answer`. A file is one run of the program.
#[test]
fn rows_of_calls_are_answered() {
    let files = files_of_rows();
    assert!(!files.is_empty());
    for file in files {
        let text = fs::read_to_string(&file).expect("rows");
        let rows = text
            .lines()
            .filter(|line| !line.is_empty() && !line.starts_with('#'))
            .map(|line| line.rsplit_once(" -> ").expect("a line and its answer"));
        let (lines, wanted): (Vec<_>, Vec<_>) = rows.unzip();
        let lines = lines.join("\n") + "\n";
        let wanted = wanted.join("\n") + "\n";
        let (ours, status) = answers(lines.as_bytes());
        assert_same(lines.as_bytes(), &ours, wanted.as_bytes());
        assert_eq!(status, 0, "{}", file.display());
    }
}

/// `tools/plain_rust test` names a file of random programs, and the answers of the proved program to them.
#[test]
fn random_programs_are_answered_as_by_the_proved_program() {
    let (Ok(lines), Ok(theirs)) = (env::var("VUKHASO_LINES"), env::var("VUKHASO_ANSWERS")) else {
        return println!("no proved program is here: `tools/plain_rust test` compares with it");
    };
    let lines = fs::read(lines).expect("the lines");
    let theirs = fs::read(theirs).expect("the answers");
    assert_same(&lines, &answers(&lines).0, &theirs);
}
