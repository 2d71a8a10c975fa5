//! A C program compiled against the header, linked with the engine and run.

use std::path::{Path, PathBuf};
use std::process::Command;

/// The file or folder with this name below the crate's.
pub fn below(part: &str) -> PathBuf {
    Path::new(env!("CARGO_MANIFEST_DIR")).join(part)
}

/// The library as it is linked.
pub fn library() -> PathBuf {
    Path::new(env!("OLGAEMURI_LIB_DIR")).join("libolgaemuri.a")
}

/// What the program writes. `options` are the compiler's, `name` is the compiled file's.
pub fn output(compiler: &str, options: &[&str], source: &Path, name: &str) -> String {
    let program = Path::new(env!("CARGO_TARGET_TMPDIR")).join(name);
    let compiled = Command::new(compiler)
        .args(["-Wall", "-Wextra", "-Wpedantic", "-Werror", "-O2"])
        .args(options)
        .arg(source)
        .args(["-x", "none"])
        .arg("-I")
        .arg(below("include"))
        .arg(library())
        .arg("-o")
        .arg(&program)
        .output()
        .expect("the compiler can be started");
    assert!(
        compiled.status.success(),
        "{}",
        String::from_utf8_lossy(&compiled.stderr)
    );
    let ran = Command::new(&program)
        .output()
        .expect("the program can be started");
    let said = String::from_utf8_lossy(&ran.stderr);
    assert!(ran.status.success(), "{:?}: {said}", ran.status);
    String::from_utf8(ran.stdout).expect("text")
}
