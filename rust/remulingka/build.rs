//! Links the proved archive, `libcube_c.a`. Where it lies is said by the
//! environment variable `REMULINGKA_ARCHIVE_DIR`; without it, in the
//! repository's `target/native`.

use std::env;
use std::path::{Path, PathBuf};

const VARIABLE: &str = "REMULINGKA_ARCHIVE_DIR";

fn main() {
    println!("cargo:rerun-if-env-changed={VARIABLE}");
    let directory = archive_directory();
    let archive = directory.join("libcube_c.a");
    // Cargo must look again once the archive is there or has changed.
    println!("cargo:rerun-if-changed={}", archive.display());
    if !archive.is_file() {
        eprintln!(
            "There is no {}. Make it with `tools/native-lib cube_c target/native` at the \
             repository's root, or set {VARIABLE} to the folder that has it.",
            archive.display()
        );
        std::process::exit(1);
    }
    println!("cargo:rustc-link-search=native={}", directory.display());
    println!("cargo:rustc-link-lib=static=cube_c");
    // For the test that links the C example.
    println!("cargo:rustc-env=REMULINGKA_ARCHIVE={}", archive.display());
}

fn archive_directory() -> PathBuf {
    match env::var_os(VARIABLE) {
        Some(directory) => PathBuf::from(directory),
        None => {
            let here = env::var_os("CARGO_MANIFEST_DIR").unwrap_or_default();
            Path::new(&here).join("../../target/native")
        }
    }
}
