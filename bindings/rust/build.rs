//! Links libnultiway.a from the folder NULTIWAY_LIB, or from target/staticlib of this repository.

use std::path::PathBuf;
use std::{env, process};

fn main() {
    println!("cargo:rerun-if-env-changed=NULTIWAY_LIB");
    let here = PathBuf::from(env::var_os("CARGO_MANIFEST_DIR").expect("cargo sets it"));
    let folder = env::var_os("NULTIWAY_LIB").map_or_else(|| here.join("../../target/staticlib"), PathBuf::from);
    let archive = folder.join("libnultiway.a");
    println!("cargo:rerun-if-changed={}", archive.display());
    if !archive.exists() {
        eprintln!("there is no {}: `tests/library/archive` makes it; NULTIWAY_LIB names its folder", archive.display());
        process::exit(1);
    }
    println!("cargo:rustc-link-search=native={}", folder.display());
    println!("cargo:rustc-link-lib=static=nultiway");
}
