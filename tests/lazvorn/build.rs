//! Links `target/staticlib/libffi.a` of the repository, which `rt staticlib ffi` writes.
use std::path::Path;

fn main() {
    let folder = Path::new(env!("CARGO_MANIFEST_DIR")).join("../../target/staticlib");
    let archive = folder.join("libffi.a");
    assert!(
        archive.exists(),
        "no {}: run `tools/build ffi` first",
        archive.display()
    );
    println!("cargo:rerun-if-changed={}", archive.display());
    println!("cargo:rustc-link-search=native={}", folder.display());
    println!("cargo:rustc-link-lib=static=ffi");
}
