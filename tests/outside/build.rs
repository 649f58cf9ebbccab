//! Links the exported calls of the library: `tools/build exports tracker_exports` writes the archives.

use std::path::Path;

fn main() {
    let folder = Path::new(&std::env::var("CARGO_MANIFEST_DIR").unwrap()).join("../../target/staticlib");
    println!("cargo:rustc-link-search=native={}", folder.display());
    for name in ["exports", "tracker_exports"] {
        let archive = folder.join(format!("lib{name}.a"));
        println!("cargo:rerun-if-changed={}", archive.display());
        if !archive.exists() {
            panic!("no {}: run `tools/build {name}` first", archive.display());
        }
        println!("cargo:rustc-link-lib=static={name}");
    }
}
