//! Finds the archive of the proved functions and has it linked.
//!
//! `LICHENHUSK_ARCHIVE` names the archive's file. Without it, it is looked for where this
//! repository's `make archive` writes it for x86-64; for another processor where an archive of
//! `rust/native_archive.sh` is to be brought, which has the same module compiled for it.

use std::env;
use std::path::{Path, PathBuf};
use std::process::exit;

const VARIABLE: &str = "LICHENHUSK_ARCHIVE";

fn main() {
    println!("cargo::rerun-if-changed=build.rs");
    println!("cargo::rerun-if-env-changed={VARIABLE}");
    let (made, command) = of_this_repository();
    let archive = env::var_os(VARIABLE).map_or(made, PathBuf::from);
    println!("cargo::rerun-if-changed={}", archive.display());
    if let Ok(archive) = archive.canonicalize() {
        link(&archive);
    } else {
        refuse(&[
            format!("There is no archive at {}.", archive.display()),
            format!("Make it with `{command}` in the repository's root,"),
            format!("or set {VARIABLE} to the archive's file."),
        ]);
    }
}

/// Where the archive for the target's processor stands, and the command that makes it.
fn of_this_repository() -> (PathBuf, &'static str) {
    let target = env::var("CARGO_CFG_TARGET_ARCH").unwrap_or_default();
    let (folder, command) = match target.as_str() {
        "x86_64" => ("staticlib", "make archive"),
        _ => ("native", "rust/native_archive.sh"),
    };
    let here = env::var_os("CARGO_MANIFEST_DIR").expect("cargo sets it for build scripts");
    let root = Path::new(&here).join("../..");
    let archive = root.join("target").join(folder).join("liblichenhusk.a");
    (archive, command)
}

fn link(archive: &Path) {
    let folder = archive.parent().unwrap_or(Path::new("."));
    let name = archive.file_name().and_then(|name| name.to_str());
    let Some(name) = name.and_then(library_name) else {
        refuse(&[format!(
            "{} is not named as archives are: lib, a name, .a.",
            archive.display()
        )]);
    };
    println!("cargo::rustc-link-search=native={}", folder.display());
    println!("cargo::rustc-link-lib=static={name}");
    println!(
        "cargo::rustc-env=LICHENHUSK_LINKED_ARCHIVE={}",
        archive.display()
    );
}

fn library_name(file: &str) -> Option<&str> {
    file.strip_prefix("lib")?.strip_suffix(".a")
}

fn refuse(lines: &[String]) -> ! {
    for line in lines {
        println!("cargo::error={line}");
    }
    exit(1)
}
