//! Links the proved library, which `tools/library` writes.
use std::path::Path;

fn main() {
    let root = Path::new(env!("CARGO_MANIFEST_DIR")).parent().expect("tests/ has a parent");
    let folder = root.join("target");
    let archive = folder.join("libsigma.a");
    assert!(archive.exists(), "run `tools/library` first: {} is missing", archive.display());
    println!("cargo:rustc-link-search=native={}", folder.display());
    println!("cargo:rerun-if-changed={}", archive.display());
    println!("cargo:rustc-link-lib=static=sigma");
}
