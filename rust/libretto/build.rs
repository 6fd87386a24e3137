//! Tells cargo where the archive `liblibretto.a` lies: in the folder that LIBRETTO_LIB_DIR names, or else in the repository's own build folder.

use std::env;
use std::path::PathBuf;

fn main() {
    let folder = match env::var_os("LIBRETTO_LIB_DIR") {
        Some(folder) => PathBuf::from(folder),
        None => PathBuf::from(env::var_os("CARGO_MANIFEST_DIR").expect("cargo sets CARGO_MANIFEST_DIR")).join("../../crates/libretto/out"),
    };
    println!("cargo:rerun-if-changed=build.rs");
    println!("cargo:rerun-if-env-changed=LIBRETTO_LIB_DIR");
    println!("cargo:rerun-if-changed={}", folder.join("liblibretto.a").display());
    println!("cargo:rustc-link-search=native={}", folder.display());
    println!("cargo:rustc-link-lib=static=libretto");
}
