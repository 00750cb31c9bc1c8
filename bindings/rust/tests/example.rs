//! The example prints what its like in C prints.

use std::env;
use std::process::Command;

#[test]
fn example_prints_what_is_stored() {
    // `cargo test` builds the examples into a folder beside that of the tests.
    let test = env::current_exe().expect("a test knows its own path");
    let folder = test.parent().and_then(|deps| deps.parent()).expect("tests are built in a folder of their own");
    let output = Command::new(folder.join("examples/score")).output().expect("`cargo test` builds the example");
    assert!(output.status.success(), "the example ends with {}", output.status);
    assert_eq!(String::from_utf8_lossy(&output.stdout), include_str!("../../../examples/score.out"));
}
