//! Links the archive `libcavzemil.a`, or says how to make it.
//!
//! Only a command that links needs the archive. So where there is none, this is a warning: `cargo doc` and
//! `cargo check` go on, and the compiler, which is told to link it all the same, stops `cargo build`.

use std::env;
use std::fs;
use std::path::{Path, PathBuf};

/// The folder that `CAVZEMIL_ARCHIVE` names; one that is empty names none.
fn named_folder() -> Option<PathBuf> {
    env::var_os("CAVZEMIL_ARCHIVE").filter(|folder| !folder.is_empty()).map(PathBuf::from)
}

/// The folder to which the repository that this package stands in writes its archive.
fn own_folder() -> PathBuf {
    let package = env::var_os("CARGO_MANIFEST_DIR").expect("cargo names the package's folder");
    let root = Path::new(&package).join("../..");
    fs::canonicalize(root).expect("the package's folder is there").join("target/staticlib")
}

/// Tells cargo what to link.
fn link(folder: &Path) {
    println!("cargo::rustc-link-search=native={}", folder.display());
    println!("cargo::rustc-link-lib=static=cavzemil");
}

/// Says how to come by an archive that is not there. Cargo looks again each time, since the file that is named
/// last is never there; by the archive's own it would pass over one that was made before cargo looked.
fn warn(archive: &Path) {
    println!("cargo::warning=There is no archive {}, and no program can be linked.", archive.display());
    println!(
        "cargo::warning=Make it with `bash scripts/build` in Cavzemil's repository, or let CAVZEMIL_ARCHIVE"
    );
    println!("cargo::warning=name the folder that has libcavzemil.a.");
    println!("cargo::rerun-if-changed={}", archive.with_extension("none").display());
}

/// Refuses a folder that is relative: a build script is not told where the user stands.
fn refuse(folder: &Path) {
    let folder = folder.display();
    println!("cargo::error=CAVZEMIL_ARCHIVE is relative, and cargo does not say from where: {folder}");
    println!("cargo::error=Name the folder from the root, as in CAVZEMIL_ARCHIVE=\"$PWD/{folder}\".");
}

/// Tells cargo what to link and when to look again.
fn main() {
    let folder = named_folder().unwrap_or_else(own_folder);
    println!("cargo::rerun-if-env-changed=CAVZEMIL_ARCHIVE");
    if folder.is_relative() {
        return refuse(&folder);
    }
    let archive = folder.join("libcavzemil.a");
    println!("cargo::rerun-if-changed={}", archive.display());
    link(&folder);
    if !archive.is_file() {
        warn(&archive);
    }
}
