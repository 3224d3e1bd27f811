//! Links crates/exports/out/libexports.a, which `rt lib` in crates/exports makes. CLIGHT_LIBRARY names another folder.

use std::path::PathBuf;

fn main() {
    println!("cargo:rerun-if-env-changed=CLIGHT_LIBRARY");
    let folder = match std::env::var_os("CLIGHT_LIBRARY") {
        Some(folder) => PathBuf::from(folder),
        None => PathBuf::from(env!("CARGO_MANIFEST_DIR")).join("../crates/exports/out"),
    };
    let library = folder.join("libexports.a");
    println!("cargo:rerun-if-changed={}", library.display());
    if !library.exists() {
        println!("cargo:warning={} is missing: run `rt lib` in crates/exports", library.display());
    }
    println!("cargo:rustc-link-search=native={}", folder.display());
    println!("cargo:rustc-link-lib=static=exports");
}
