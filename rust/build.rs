// Links liblohandema.a, which `rust/archive` writes to target/native of the repository. LOHANDEMA_ARCHIVE names another folder.
use std::{env, path::PathBuf, process};

fn main() {
    println!("cargo:rerun-if-env-changed=LOHANDEMA_ARCHIVE");
    let folder = match env::var("LOHANDEMA_ARCHIVE") {
        Ok(folder) => PathBuf::from(folder),
        Err(_) => PathBuf::from(env!("CARGO_MANIFEST_DIR")).join("../target/native"),
    };
    let archive = folder.join("liblohandema.a");
    println!("cargo:rerun-if-changed={}", archive.display());
    if !archive.exists() {
        eprintln!("{} is not there: run rust/archive first", archive.display());
        process::exit(1);
    }
    println!("cargo:rustc-link-search=native={}", folder.display());
    println!("cargo:rustc-link-lib=static=lohandema");
}
