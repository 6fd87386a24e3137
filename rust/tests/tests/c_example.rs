//! The C example of finding prints what it should.

use libretto_tests::programs::{c_example, repository};
use std::fs;
use std::path::Path;
use std::process::Command;

#[test]
fn find_example() {
    let program = c_example("find", Path::new(env!("CARGO_TARGET_TMPDIR")));
    let expected = fs::read(repository().join("examples/find.expected")).expect("examples/find.expected is read");

    let output = Command::new(&program).output().expect("the example starts");
    assert!(output.status.success(), "the example: {}\n{}", output.status, String::from_utf8_lossy(&output.stderr));
    assert!(
        output.stdout == expected,
        "the example printed\n{}\nbut should print\n{}",
        String::from_utf8_lossy(&output.stdout),
        String::from_utf8_lossy(&expected)
    );
}
