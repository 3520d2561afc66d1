//! Links the static library of the proved check, which `rt lib` writes in the folder of the crate checker_c. The folder in which it lies is named by
//! the environment variable `YESTRWYN_LIB_DIR`; without it, it is looked for where the toolchain puts it in this repository.
//! Where there is none, nothing is linked: documentation and type checks need no library, and a program fails at its link.

use std::env;
use std::path::{Path, PathBuf};

const FOLDER: &str = "YESTRWYN_LIB_DIR";

fn main() {
    println!("cargo:rerun-if-env-changed={FOLDER}");
    let folder = env::var_os(FOLDER).map_or_else(in_the_repository, PathBuf::from);
    let archive = folder.join("libchecker_c.a");
    println!("cargo:rerun-if-changed={}", archive.display());
    if !archive.exists() {
        // A relative name is taken from this package's folder, so the whole one is shown.
        let archive = std::path::absolute(&archive).unwrap_or(archive);
        println!("cargo:warning={} is missing, and programs cannot be linked.", archive.display());
        println!("cargo:warning=Write it with `rt lib` in crates/checker_c, or name its folder in {FOLDER}.");
        return;
    }
    println!("cargo:rustc-link-search=native={}", folder.display());
    println!("cargo:rustc-link-lib=static=checker_c");
}

/// The folder that the toolchain writes to.
fn in_the_repository() -> PathBuf {
    let package = env::var_os("CARGO_MANIFEST_DIR").unwrap_or_default();
    Path::new(&package).join("../../crates/checker_c/out")
}
