//! Links libforthwn.a: of the folder FORTHWN_LIB_DIR, else of the repository's target/staticlib.
use std::env;
use std::path::{Path, PathBuf};

fn main() {
    println!("cargo::rerun-if-env-changed=FORTHWN_LIB_DIR");
    let folder =
        env::var_os("FORTHWN_LIB_DIR").map_or_else(|| Path::new(env!("CARGO_MANIFEST_DIR")).join("../../target/staticlib"), PathBuf::from);
    let archive = folder.join("libforthwn.a");
    println!("cargo::rerun-if-changed={}", archive.display());
    if !archive.is_file() {
        println!("cargo::error=no {}: run `tools/build forthwn`, or set FORTHWN_LIB_DIR to its folder", archive.display());
    }
    println!("cargo::rustc-link-search=native={}", folder.display());
    println!("cargo::rustc-link-lib=static=forthwn");
}
