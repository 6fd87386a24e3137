//! What the compiler made of the library: FJS's loop notes moves for `libretto_find_moves` alone. A find has a copy of it without them, so that it costs
//! what it did before there were moves. Where the loop grows past what the compiler copies, both would call a shared one.

use libretto_tests::programs::archive;
use std::process::Command;

/// The functions of other crates that this exported function calls, as the archive's relocations name them.
fn calls(function: &str) -> Vec<String> {
    let section = format!("--section=.text.{function}");
    let output = Command::new("objdump").args(["-dr", &section]).arg(archive()).output().expect("objdump, which comes with gcc, starts");
    let code = String::from_utf8(output.stdout).expect("names are in UTF-8");
    assert!(output.status.success() && code.contains(&format!("<{function}>:")), "the archive has no code of {function}:\n{code}");
    let named = code.lines().filter(|line| line.contains("R_X86_64_") && line.contains("::"));
    let name = |line: &str| line.split_whitespace().last().expect("a relocation has a name").trim_start_matches(".text.").to_string();
    named.map(name).collect()
}

#[test]
fn a_find_has_a_loop_of_its_own() {
    for function in ["libretto_find", "libretto_find_moves"] {
        let engine: Vec<String> = calls(function).into_iter().filter(|name| name.starts_with("fjs::")).collect();
        assert!(engine.is_empty(), "{function} calls {engine:?}");
    }
    // A call that is there is seen: the resolver reads a book by a function that others call too.
    assert!(calls("libretto_resolve").iter().any(|name| name.starts_with("cue_book::walk")), "{:?}", calls("libretto_resolve"));
}
