//! Compiles the C twins in three builds that differ in the placement of code alone, and packs them into one archive. A define puts the build's name
//! behind each function's, so that the three can be linked side by side and the C source stays plain. The library's own find is copied out of its
//! archive to other placements in the same way, since where the linker puts it is as much a matter of chance.

use std::env;
use std::path::{Path, PathBuf};
use std::process::Command;

/// The builds and the options by which they differ: gcc's own placement, functions and loops on wide bounds, and no alignment at all.
const BUILDS: [(&str, &[&str]); 3] = [
    ("plain", &[]),
    ("wide", &["-falign-functions=64", "-falign-loops=32", "-falign-jumps=32"]),
    ("packed", &["-fno-align-functions", "-fno-align-loops", "-fno-align-jumps", "-fno-align-labels"]),
];

/// The files of `c/` and the function that each defines.
const TWINS: [(&str, &str); 15] = [
    ("naive", "twin_naive"),
    ("kmp", "twin_kmp"),
    ("horspool", "twin_horspool"),
    ("sunday", "twin_sunday"),
    ("fjs", "twin_fjs"),
    ("double_window", "twin_double_window"),
    ("boyer_moore", "twin_boyer_moore"),
    ("improved_fjs", "twin_improved_fjs"),
    ("fjs_moves", "twin_fjs_moves"),
    ("memmem", "twin_memmem"),
    ("late_cuts", "twin_relist"),
    ("cue_book", "twin_read_book"),
    ("retitle", "twin_retitle"),
    ("automaton", "twin_resolve"),
    ("fold", "twin_fold"),
];

/// The bytes by which copies of the library's find start behind a bound of 64.
const SHIFTS: [usize; 4] = [0, 16, 32, 48];

const OPTIONS: [&str; 6] = ["-std=c11", "-O3", "-Wall", "-Wextra", "-Werror", "-c"];

fn main() {
    let out = PathBuf::from(env::var_os("OUT_DIR").expect("cargo sets OUT_DIR"));
    let mut objects: Vec<PathBuf> = BUILDS.iter().flat_map(|build| TWINS.iter().map(|twin| compile(build, twin, &out))).collect();
    let library = unpack(&out);
    objects.extend(SHIFTS.iter().map(|&shift| place(&library, shift, &out)));
    let archive = out.join("libtwins.a");
    // An archive of an earlier build could hold objects that no longer exist; whether there was one does not matter.
    let _ = std::fs::remove_file(&archive);
    run(Command::new("ar").arg("crs").arg(&archive).args(&objects));

    println!("cargo:rerun-if-changed=build.rs");
    println!("cargo:rerun-if-changed=c");
    println!("cargo:rustc-link-search=native={}", out.display());
    println!("cargo:rustc-link-lib=static=twins");
    println!("cargo:rustc-env=TWIN_COMPILER=gcc {}", printed("gcc", "-dumpfullversion"));
    println!("cargo:rustc-env=REFERENCE_COMPILER={}", printed(&env::var("RUSTC").expect("cargo sets RUSTC"), "--version"));
}

fn compile((build, placement): &(&str, &[&str]), (file, function): &(&str, &str), out: &Path) -> PathBuf {
    let object = out.join(format!("{file}_{build}.o"));
    let rename = format!("-D{function}={function}_{build}");
    run(Command::new("gcc").args(OPTIONS).args(*placement).arg(rename).arg(format!("c/{file}.c")).arg("-o").arg(&object));
    object
}

/// The one object of the library's archive.
fn unpack(out: &Path) -> PathBuf {
    let folder = env::var_os("LIBRETTO_LIB_DIR").map_or_else(|| PathBuf::from("../crates/libretto/out"), PathBuf::from);
    let archive = folder.canonicalize().unwrap_or_else(|error| panic!("{}: {error}", folder.display())).join("liblibretto.a");
    println!("cargo:rerun-if-env-changed=LIBRETTO_LIB_DIR");
    println!("cargo:rerun-if-changed={}", archive.display());
    run(Command::new("ar").arg("x").arg(archive).current_dir(out));
    out.join("libretto.o")
}

/// A copy of the library's find that starts so many bytes behind a bound of 64, under a name of its own; nothing else of the copy is seen outside.
fn place(library: &Path, shift: usize, out: &Path) -> PathBuf {
    let [source, pad, shifted, placed] = ["s", "pad.o", "shifted.o", "o"].map(|kind| out.join(format!("library_{shift}.{kind}")));
    let padding = format!(".section .text.libretto_find,\"ax\",@progbits\n.p2align 6\n.skip {shift}, 0x90\n.section .note.GNU-stack,\"\"\n");
    std::fs::write(&source, padding).unwrap_or_else(|error| panic!("{}: {error}", source.display()));
    run(Command::new("gcc").arg("-c").arg(&source).arg("-o").arg(&pad));
    run(Command::new("ld").arg("-r").args([&pad, library]).arg("-o").arg(&shifted));
    let name = format!("libretto_find_{shift}");
    let rename = format!("libretto_find={name}");
    run(Command::new("objcopy").args(["--redefine-sym", &rename, "--keep-global-symbol", &name]).args([&shifted, &placed]));
    placed
}

fn run(command: &mut Command) {
    let status = command.status().unwrap_or_else(|error| panic!("{command:?}: {error}"));
    assert!(status.success(), "{command:?}: {status}");
}

/// The first line that a program prints for this argument.
fn printed(program: &str, argument: &str) -> String {
    let output = Command::new(program).arg(argument).output().unwrap_or_else(|error| panic!("{program}: {error}"));
    String::from_utf8_lossy(&output.stdout).lines().next().unwrap_or_default().to_string()
}
