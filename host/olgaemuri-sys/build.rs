//! Links libolgaemuri.a. Makes it by `tools/staticlib olgaemuri` where target/staticlib/libolgaemuri.a is missing or older than what it is
//! made from. OLGAEMURI_LIB_DIR is the full path of a folder that holds a finished libolgaemuri.a instead.

use std::env;
use std::fs::{self, File};
use std::io;
use std::path::{Path, PathBuf};
use std::process::{self, Command};
use std::time::SystemTime;

/// What the library is made from, below the repository's root.
const CRATES: [&str; 5] = [
    "crates/olgaemuri_c",
    "crates/olgaemuri",
    "crates/engine",
    "crates/clocks",
    "crates/hazards",
];
const PARTS: [&str; 3] = ["src", "specs", "proofs"];

/// How `tools/staticlib` ends where there is no `rt`.
const NO_RT: i32 = 127;

const TO_INSTALL: &str = "libolgaemuri.a is made by the Rattle kit: install the kit, so that its command `rt` is on the PATH, and build \
    again, or set OLGAEMURI_LIB_DIR to a folder that has a libolgaemuri.a";

fn main() {
    println!("cargo::rerun-if-env-changed=OLGAEMURI_LIB_DIR");
    let manifest = PathBuf::from(env::var_os("CARGO_MANIFEST_DIR").expect("set by cargo"));
    let folder =
        env::var_os("OLGAEMURI_LIB_DIR").map_or_else(|| made_folder(&manifest), PathBuf::from);
    let library = folder.join("libolgaemuri.a");
    if !library.is_file() {
        fail(&format!("there is no {}; {TO_INSTALL}", library.display()));
    }
    println!("cargo::rerun-if-changed={}", library.display());
    println!("cargo::rustc-link-search=native={}", folder.display());
    println!("cargo::rustc-link-lib=static=olgaemuri");
    println!("cargo::rustc-env=OLGAEMURI_LIB_DIR={}", folder.display());
    println!(
        "cargo::metadata=include={}",
        manifest.join("include").display()
    );
}

/// The repository's own folder, with the library made anew where that is due.
fn made_folder(manifest: &Path) -> PathBuf {
    let root = manifest.join("../..");
    let root = root.canonicalize().unwrap_or(root);
    let sources: Vec<PathBuf> = CRATES
        .iter()
        .flat_map(|name| PARTS.iter().map(move |part| Path::new(name).join(part)))
        .map(|part| root.join(part))
        .filter(|part| part.exists())
        .collect();
    for source in &sources {
        println!("cargo::rerun-if-changed={}", source.display());
    }
    let folder = root.join("target/staticlib");
    // two builds at the same time make it once; held to the end of this function
    let _lock = locked(&root.join("target"));
    let made = modified(&folder.join("libolgaemuri.a"));
    let newest = sources.iter().filter_map(|source| newest(source)).max();
    if made.is_none() || made < newest {
        make(&root, made.is_some());
    }
    folder
}

/// A lock that another build script waits for.
fn locked(folder: &Path) -> io::Result<File> {
    fs::create_dir_all(folder)?;
    let file = File::create(folder.join("libolgaemuri.lock"))?;
    file.lock()?;
    Ok(file)
}

fn modified(path: &Path) -> Option<SystemTime> {
    fs::metadata(path).and_then(|data| data.modified()).ok()
}

/// The newest time at which a file below the path, or the file itself, was changed.
fn newest(path: &Path) -> Option<SystemTime> {
    if !path.is_dir() {
        return modified(path);
    }
    let entries = fs::read_dir(path).into_iter().flatten().flatten();
    entries.filter_map(|entry| newest(&entry.path())).max()
}

/// Makes the library. Without `rt` an old library is linked as it is.
fn make(root: &Path, old_is_there: bool) {
    match Command::new(root.join("tools/staticlib"))
        .arg("olgaemuri")
        .output()
    {
        Ok(output) if output.status.success() => {}
        Ok(output) if output.status.code() == Some(NO_RT) && old_is_there => {
            println!(
                "cargo::warning=libolgaemuri.a is older than the engine's sources, and there is no `rt` to make it anew"
            );
        }
        Ok(output) if output.status.code() == Some(NO_RT) => fail(TO_INSTALL),
        Ok(output) => {
            let said = [output.stdout, output.stderr].concat();
            String::from_utf8_lossy(&said)
                .lines()
                .for_each(|line| println!("cargo::error={line}"));
            fail("`tools/staticlib olgaemuri` failed, see above");
        }
        Err(error) => fail(&format!(
            "`tools/staticlib olgaemuri` could not be started ({error}); {TO_INSTALL}"
        )),
    }
}

/// Ends the build with the reason. Cargo takes the line for a failure and shows it without the script's other output.
fn fail(what: &str) -> ! {
    println!("cargo::error={what}");
    process::exit(0);
}
