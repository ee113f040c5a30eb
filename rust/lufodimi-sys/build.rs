//! Links `liblufodimi.a` from the folder that LUFODIMI_LIB_DIR names, or else from the
//! repository's `target/lib`.

use std::env;
use std::path::{Path, PathBuf};

const VARIABLE: &str = "LUFODIMI_LIB_DIR";

fn main() {
    let folder = folder();
    let archive = folder.join("liblufodimi.a");
    println!("cargo::rerun-if-env-changed={VARIABLE}");
    println!("cargo::rerun-if-changed={}", archive.display());
    if archive.is_file() {
        println!("cargo::rustc-link-search=native={}", folder.display());
        println!("cargo::rustc-link-lib=static=lufodimi");
    } else {
        println!(
            "cargo::error=there is no {}: run `scripts/library` in the repository, \
             or let {VARIABLE} name the folder of liblufodimi.a",
            archive.display()
        );
    }
}

/// The folder of the static library.
fn folder() -> PathBuf {
    if let Some(folder) = env::var_os(VARIABLE) {
        return PathBuf::from(folder);
    }
    let package = env::var_os("CARGO_MANIFEST_DIR").expect("cargo sets it");
    let repository = Path::new(&package).ancestors().nth(2);
    repository
        .expect("the package is in rust/lufodimi-sys")
        .join("target/lib")
}
