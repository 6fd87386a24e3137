//! Programs that tests run as processes: those that the proof run leaves, and the example programs, which are built for the test.

use std::env;
use std::path::{Path, PathBuf};
use std::process::Command;

/// The repository's folder.
pub fn repository() -> PathBuf {
    Path::new(env!("CARGO_MANIFEST_DIR")).join("../..")
}

/// The library's archive.
pub fn archive() -> PathBuf {
    env::var_os("LIBRETTO_LIB_DIR").map_or_else(|| repository().join("crates/libretto/out"), PathBuf::from).join("liblibretto.a")
}

/// A program that the proof run leaves in the repository's build folder, or the one that this variable names.
pub fn proved_program(name: &str, variable: &str) -> PathBuf {
    let path = env::var_os(variable).map_or_else(|| repository().join("crates").join(name).join("out").join(name), PathBuf::from);
    assert!(path.is_file(), "the program {name} does not exist at {}: build it first", path.display());
    path
}

/// Compiles a C example against the header and the archive, with every warning an error, and gives the program's path in this folder.
pub fn c_example(name: &str, folder: &Path) -> PathBuf {
    let program = folder.join(format!("c-example-{name}"));
    let source = format!("examples/{name}.c");
    let warnings = ["-std=c99", "-Wall", "-Wextra", "-Wpedantic", "-Werror"];
    run_builder(
        Command::new("gcc").current_dir(repository()).args(warnings).args(["-O2", "-I", "include", &source]).arg(archive()).arg("-o").arg(&program),
    );
    program
}

/// Builds an example of the wrapper within this target folder, where cargo has mostly built it before, and gives the program's path.
pub fn rust_example(name: &str, target: &Path) -> PathBuf {
    let cargo = env::var_os("CARGO").unwrap_or_else(|| "cargo".into());
    let example = ["build", "--quiet", "--offline", "--package", "libretto", "--example", name, "--target-dir"];
    run_builder(Command::new(cargo).current_dir(repository().join("rust")).args(example).arg(target));
    target.join("debug/examples").join(name)
}

fn run_builder(command: &mut Command) {
    let output = command.output().unwrap_or_else(|error| panic!("{command:?} does not start: {error}"));
    assert!(output.status.success(), "{command:?}: {}\n{}", output.status, String::from_utf8_lossy(&output.stderr));
}
