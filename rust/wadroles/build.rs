//! Links the proved library, `libwadroles.a`.
//!
//! The archive is taken from `crates/wadroles/out` in the repository, where `rt lib` writes it, or
//! from the directory that the environment variable `WADROLES_LIB_DIR` names by its absolute path. The
//! tests find it by `env!("WADROLES_ARCHIVE")`, to link it to the C example.

use std::env;
use std::path::{Path, PathBuf};
use std::process::exit;

const DIRECTORY_VARIABLE: &str = "WADROLES_LIB_DIR";

fn main() {
    let directory = archive_directory();
    let archive = directory.join("libwadroles.a");
    println!("cargo::rerun-if-env-changed={DIRECTORY_VARIABLE}");
    println!("cargo::rerun-if-changed={}", archive.display());

    if !archive.is_file() {
        println!(
            "cargo::error=there is no archive {}: make it with `rt lib --cpu x86-64` in crates/wadroles, \
             or name its directory in {DIRECTORY_VARIABLE}",
            archive.display()
        );
        exit(1);
    }
    println!("cargo::rustc-link-search=native={}", directory.display());
    println!("cargo::rustc-link-lib=static=wadroles");
    println!("cargo::rustc-env=WADROLES_ARCHIVE={}", archive.display());
}

fn archive_directory() -> PathBuf {
    match env::var_os(DIRECTORY_VARIABLE) {
        Some(directory) => PathBuf::from(directory),
        None => repository_root().join("crates/wadroles/out"),
    }
}

/// This package lies two directories below the root, in `rust/wadroles`.
fn repository_root() -> PathBuf {
    let package = env::var_os("CARGO_MANIFEST_DIR").expect("cargo sets CARGO_MANIFEST_DIR");
    Path::new(&package)
        .ancestors()
        .nth(2)
        .expect("the package lies two directories below the root")
        .to_path_buf()
}
