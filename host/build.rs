//! Links the archive that `tools/archive capi` writes.

use std::path::Path;

fn main() {
    let root = Path::new(env!("CARGO_MANIFEST_DIR")).parent().expect("the folder above host/").to_owned();
    let folder = root.join("target/staticlib");
    assert!(
        folder.join("libcapi.a").exists(),
        "target/staticlib/libcapi.a is not there: run `tools/archive capi` first"
    );
    println!("cargo:rustc-link-search=native={}", folder.display());
    println!("cargo:rustc-link-lib=static=capi");
    println!("cargo:rerun-if-changed={}", folder.join("libcapi.a").display());
}
