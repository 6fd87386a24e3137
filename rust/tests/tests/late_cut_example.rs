//! The example of a late cut, as a process, prints what it should.

use libretto_tests::programs::rust_example;
use std::path::Path;
use std::process::Command;

const EXPECTED: &str = r#""home we row" in the old song: [30, 73, 153]
letters 60 to 116: "burning, and home we row,\nthe current is turning, so slow"
are replaced by: "low,\nthe current is turning, and home"
"home we row" in the new song:
   30  stays
   93  fresh
  133  moved by -20
A fresh find in the new song gives the same list.
"#;

#[test]
fn late_cut_example() {
    let target = Path::new(env!("CARGO_TARGET_TMPDIR")).parent().expect("cargo's folder for tests lies in its target folder");
    let output = Command::new(rust_example("late_cut", target)).output().expect("the example starts");
    let [out, errors] = [output.stdout, output.stderr].map(|bytes| String::from_utf8(bytes).expect("all that is printed is in UTF-8"));
    assert!(output.status.success() && errors.is_empty(), "the example: {}\n{errors}", output.status);
    assert!(out == EXPECTED, "the example printed\n{out}\nbut should print\n{EXPECTED}");
}
