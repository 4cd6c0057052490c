//! Lays the source of parquet-variant 60.0.0 where `src/lib.rs` includes it.
//!
//! `LICHENHUSK_RUST_SOURCE` names the folder of the source (the one that has its `lib.rs`);
//! without it, it is looked for beside this repository. Every module is compiled from a copy, byte
//! for byte: `rt ci` refuses a link below the repository. The crate's root alone is without its
//! `//!` lines: those may not stand in an included file.

use std::env;
use std::fs;
use std::path::{Path, PathBuf};
use std::process::exit;

const VARIABLE: &str = "LICHENHUSK_RUST_SOURCE";
const DEFAULT: &str = "../../../shared/docs/src";

fn main() {
    println!("cargo::rerun-if-changed=build.rs");
    println!("cargo::rerun-if-env-changed={VARIABLE}");
    let given = env::var_os(VARIABLE).unwrap_or(DEFAULT.into());
    let Ok(source) = Path::new(&given).canonicalize() else {
        println!("cargo::error=There is no folder {}.", given.display());
        println!("cargo::error=Set {VARIABLE} to the folder of parquet-variant's lib.rs.");
        exit(1)
    };
    println!("cargo::rerun-if-changed={}", source.display());
    let laid = fresh_folder();
    copy_modules(&source, &laid);
    write_root(&source, &laid);
}

fn fresh_folder() -> PathBuf {
    let out = env::var_os("OUT_DIR").expect("cargo sets it for build scripts");
    let folder = Path::new(&out).join("original");
    if folder.exists() {
        fs::remove_dir_all(&folder).expect("the folder is this script's own");
    }
    fs::create_dir_all(&folder).expect("room in cargo's folder");
    folder
}

/// Everything of the folder but its own `lib.rs`.
fn copy_modules(source: &Path, laid: &Path) {
    for entry in fs::read_dir(source).expect("a folder") {
        let entry = entry.expect("a folder's entry");
        if entry.file_name() != "lib.rs" {
            copy(&entry.path(), &laid.join(entry.file_name()));
        }
    }
}

fn copy(from: &Path, to: &Path) {
    if !from.is_dir() {
        fs::copy(from, to).expect("room in cargo's folder");
        return;
    }
    fs::create_dir(to).expect("room in cargo's folder");
    for entry in fs::read_dir(from).expect("a folder") {
        let entry = entry.expect("a folder's entry");
        copy(&entry.path(), &to.join(entry.file_name()));
    }
}

fn write_root(source: &Path, laid: &Path) {
    let root = fs::read_to_string(source.join("lib.rs")).expect("the source has a lib.rs");
    let kept: Vec<&str> = root
        .lines()
        .filter(|line| !line.starts_with("//!"))
        .collect();
    fs::write(laid.join("lib.rs"), kept.join("\n") + "\n").expect("room in cargo's folder");
}
