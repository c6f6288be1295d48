// Links the proved library, which `rt lib` in crates/boundary has written.
use std::path::Path;

fn main() {
    let here = std::env::var("CARGO_MANIFEST_DIR").unwrap();
    let folder = Path::new(&here).join("../crates/boundary/out");
    let library = folder.join("libboundary.a");
    assert!(library.exists(), "first run `rt lib` in crates/boundary");
    println!("cargo:rustc-link-search=native={}", folder.display());
    println!("cargo:rustc-link-lib=static=boundary");
    println!("cargo:rerun-if-changed={}", library.display());
    println!("cargo:rerun-if-changed=build.rs");
}
