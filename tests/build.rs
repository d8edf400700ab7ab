//! Links the static library `probe`, which `rt lib` in crates/probe makes beforehand. The library
//! `damselbuckle` is linked by its wrapper.
use std::path::Path;

fn main() {
    let root = std::env::var("CARGO_MANIFEST_DIR").expect("cargo sets CARGO_MANIFEST_DIR");
    let folder = Path::new(&root).join("../crates/probe/out");
    let archive = folder.join("libprobe.a");
    println!("cargo:rerun-if-changed={}", archive.display());
    assert!(
        archive.exists(),
        "crates/probe/out/libprobe.a is missing: run `rt lib` in crates/probe first"
    );
    println!("cargo:rustc-link-search=native={}", folder.display());
    println!("cargo:rustc-link-lib=static=probe");
}
