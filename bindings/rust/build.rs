//! Links `libbreccianest.a` from BRECCIANEST_LIB_DIR, or from where
//! `scripts/build` writes it.

use std::env;
use std::path::{Path, PathBuf};

fn main() {
    println!("cargo:rerun-if-changed=build.rs");
    println!("cargo:rerun-if-env-changed=BRECCIANEST_LIB_DIR");
    let folder = folder();
    let library = folder.join("libbreccianest.a");
    if !library.is_file() {
        panic!("{} is not there: `scripts/build` builds it", library.display());
    }
    println!("cargo:rerun-if-changed={}", library.display());
    println!("cargo:rustc-link-search=native={}", folder.display());
    println!("cargo:rustc-link-lib=static=breccianest");
}

fn folder() -> PathBuf {
    let package = env::var_os("CARGO_MANIFEST_DIR").expect("cargo sets it");
    let usual = || Path::new(&package).join("../../target/staticlib");
    env::var_os("BRECCIANEST_LIB_DIR").map_or_else(usual, PathBuf::from)
}
