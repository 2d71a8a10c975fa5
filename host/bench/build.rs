//! Links target/staticlib/libprobe.a of the repository, which `tools/staticlib probe` writes.
//! PROBE_LIB_DIR names another folder to take it from.

use std::env;
use std::path::{Path, PathBuf};

fn main() {
    println!("cargo::rerun-if-env-changed=PROBE_LIB_DIR");
    let folder = env::var_os("PROBE_LIB_DIR").map_or_else(repository_folder, PathBuf::from);
    let archive = folder.join("libprobe.a");
    if !archive.is_file() {
        println!("cargo::warning=libprobe.a is missing: run `tools/staticlib probe` at the root");
    }
    println!("cargo::rerun-if-changed={}", archive.display());
    println!("cargo::rustc-link-search=native={}", folder.display());
    println!("cargo::rustc-link-lib=static=probe");
}

fn repository_folder() -> PathBuf {
    let manifest = env::var_os("CARGO_MANIFEST_DIR").expect("set by cargo");
    Path::new(&manifest).join("../../target/staticlib")
}
