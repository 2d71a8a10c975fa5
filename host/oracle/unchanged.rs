//! The build script of the stand-ins that hold a file of the unchanged Rust: writes the line that makes the file a module. The Rust is
//! in the folder that KAIROS_DIR names, a checkout of its repository (a full path, or one from this repository's root), or else in
//! ../shared/docs/src beside this repository.

use std::env;
use std::fs;
use std::path::{Path, PathBuf};
use std::process;

/// For each stand-in the file below `crates/` and the module that it becomes.
const FILES: [(&str, &str, &str); 3] = [
    (
        "kairo_ecs_des",
        "kairo-ecs-des/src/hazard_clock.rs",
        "pub mod hazard_clock;",
    ),
    (
        "kairo_ecs_rng",
        "kairo-ecs-rng/src/competing_risks.rs",
        "pub mod competing_risks;",
    ),
    (
        "kairo_ecs_types",
        "kairo-ecs-types/src/lib.rs",
        "mod unchanged;",
    ),
];

fn main() {
    println!("cargo::rerun-if-env-changed=KAIROS_DIR");
    let [manifest, out] =
        ["CARGO_MANIFEST_DIR", "OUT_DIR"].map(|name| PathBuf::from(variable(name)));
    let folder = env::var("KAIROS_DIR").unwrap_or_default();
    let folder = if folder.is_empty() {
        "../shared/docs/src"
    } else {
        &folder
    };
    let root = manifest.join("../../../..");
    let crates = root.join(folder).join("crates");
    let package = variable("CARGO_PKG_NAME");
    for (_, file, module) in FILES.iter().filter(|file| file.0 == package) {
        let file = found(&crates.join(file));
        println!("cargo::rerun-if-changed={}", file.display());
        let line = format!(
            "#[path = {:?}]\n{module}\n",
            file.to_str().expect("a path in UTF-8")
        );
        fs::write(out.join("unchanged.rs"), line).expect("cargo's folder can be written");
    }
}

fn variable(name: &str) -> String {
    env::var(name).expect("set by cargo")
}

/// The file's full path. Without the file the build ends with the reason.
fn found(file: &Path) -> PathBuf {
    file.canonicalize().unwrap_or_else(|_| {
        println!(
            "cargo::error=there is no {}; KAIROS_DIR names a checkout of the Rust",
            file.display()
        );
        process::exit(0);
    })
}
