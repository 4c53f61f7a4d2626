//! Links `static=breccianest` from BRECCIANEST_LIB_DIR when `linked` is on.

use std::env;

fn main() {
    println!("cargo:rerun-if-changed=build.rs");
    println!("cargo:rerun-if-env-changed=BRECCIANEST_LIB_DIR");
    if env::var_os("CARGO_FEATURE_LINKED").is_none() {
        return;
    }
    let folder = env::var("BRECCIANEST_LIB_DIR")
        .expect("feature `linked` needs BRECCIANEST_LIB_DIR, the folder of the library");
    println!("cargo:rerun-if-changed={folder}/libbreccianest.a");
    println!("cargo:rustc-link-search=native={folder}");
    println!("cargo:rustc-link-lib=static=breccianest");
}
