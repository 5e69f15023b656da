//! Links the library that `bash bindings/build` makes: target/lib/libedf.a, or the folder that EDF_LIB_DIR names.

use std::path::{Path, PathBuf};

fn main() {
    let here = PathBuf::from(std::env::var("CARGO_MANIFEST_DIR").expect("cargo sets it"));
    let folder = std::env::var("EDF_LIB_DIR").map_or_else(|_| here.join("../../target/lib"), PathBuf::from);
    let archive = folder.join("libedf.a");
    if !Path::new(&archive).exists() {
        panic!("{} is not there: run `bash bindings/build` first", archive.display());
    }
    println!("cargo:rustc-link-search=native={}", folder.display());
    println!("cargo:rustc-link-lib=static=edf");
    println!("cargo:rerun-if-changed={}", archive.display());
    println!("cargo:rerun-if-env-changed=EDF_LIB_DIR");
}
