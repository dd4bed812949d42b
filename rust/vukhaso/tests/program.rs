//! The program `vukhaso_shape`, where it is called wrongly.
#![cfg(feature = "std")]

use std::process::Command;

#[test]
fn a_file_that_is_not_there_is_named() {
    let ended = Command::new(env!("CARGO_BIN_EXE_vukhaso_shape"))
        .args(["/nonexistent/font.ttf", "a"])
        .output()
        .unwrap();
    let said = String::from_utf8(ended.stderr).unwrap();
    assert!(said.contains("/nonexistent/font.ttf: "), "{said}");
    assert!(ended.stdout.is_empty());
    assert_eq!(ended.status.code(), Some(1));
}
