//! The Rust of the repository's README.md, as a reader would try it: in a crate of its own that depends on this one. It prints
//! what is said under it.

use std::path::{Path, PathBuf};
use std::process::Command;
use std::{env, fs};

/// The one program in Rust of README.md, and the line that is said to be printed.
fn program(readme: &str) -> (&str, &str) {
    let mut blocks = readme.split("```rust\n").skip(1);
    let block = blocks.next().expect("README.md has a program in Rust");
    assert!(blocks.next().is_none(), "README.md has one program in Rust");
    let (code, after) = block
        .split_once("```\n\nprints `")
        .expect("what is printed is said under it");
    let (said, _) = after.split_once('`').expect("what is said ends");
    (code, said)
}

/// A crate with this program.
fn lay_out(folder: &Path, code: &str) {
    let ours = env!("CARGO_MANIFEST_DIR");
    let manifest = format!(
        "[package]\nname = \"reader\"\nedition = \"2024\"\n[dependencies]\nlohandema = {{ path = {ours:?} }}\n[workspace]\n"
    );
    fs::create_dir_all(folder.join("src")).unwrap();
    fs::write(folder.join("Cargo.toml"), manifest).unwrap();
    fs::write(folder.join("src/main.rs"), code).unwrap();
}

#[test]
fn prints_what_is_said() {
    let readme =
        fs::read_to_string(Path::new(env!("CARGO_MANIFEST_DIR")).join("../README.md")).unwrap();
    let (code, said) = program(&readme);
    let folder = PathBuf::from(env!("CARGO_TARGET_TMPDIR")).join("reader");
    lay_out(&folder, code);
    let run = Command::new(env::var("CARGO").unwrap_or("cargo".into()))
        .args(["run", "--offline", "--quiet", "--target-dir", "target"])
        .current_dir(&folder)
        .output()
        .unwrap();
    assert!(
        run.status.success(),
        "{}",
        String::from_utf8_lossy(&run.stderr)
    );
    assert_eq!(String::from_utf8_lossy(&run.stdout).trim(), said);
}
