//! Links the static library `damselbuckle`, which `rt lib` in crates/damselbuckle makes beforehand.
use std::path::Path;

fn main() {
    let root = std::env::var("CARGO_MANIFEST_DIR").expect("cargo sets CARGO_MANIFEST_DIR");
    let folder = Path::new(&root).join("../../crates/damselbuckle/out");
    let archive = folder.join("libdamselbuckle.a");
    println!("cargo:rerun-if-changed={}", archive.display());
    assert!(
        archive.exists(),
        "crates/damselbuckle/out/libdamselbuckle.a is missing: run `rt lib` in crates/damselbuckle first"
    );
    println!("cargo:rustc-link-search=native={}", folder.display());
    println!("cargo:rustc-link-lib=static=damselbuckle");
}
