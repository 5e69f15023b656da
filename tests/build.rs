//! Links the verified library, which `rt lib` makes in crates/edf_c.

fn main() {
    let folder = format!("{}/../crates/edf_c/out", std::env::var("CARGO_MANIFEST_DIR").unwrap());
    let library = format!("{folder}/libedf_c.a");
    println!("cargo:rerun-if-changed={library}");
    assert!(std::path::Path::new(&library).exists(), "there is no {library}: `rt lib` makes it in crates/edf_c");
    println!("cargo:rustc-link-search=native={folder}");
    println!("cargo:rustc-link-lib=static=edf_c");
}
