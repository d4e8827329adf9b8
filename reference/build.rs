//! Names the C archive, which `rt lib` builds in `crates/capi`.

use std::path::Path;

fn main() {
    let folder = Path::new(env!("CARGO_MANIFEST_DIR")).join("../crates/capi/out");
    let archive = folder.join("libcapi.a");
    assert!(
        archive.exists(),
        "no crates/capi/out/libcapi.a: run `rt lib` in crates/capi first"
    );
    println!("cargo:rustc-link-search=native={}", folder.display());
    println!("cargo:rustc-link-lib=static=capi");
    println!("cargo:rerun-if-changed={}", archive.display());
}
