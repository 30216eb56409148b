//! Links the static library that `tools/library` writes.

use std::path::Path;

fn main() {
    let here = std::env::var("CARGO_MANIFEST_DIR").unwrap();
    let top = Path::new(&here).join("..").canonicalize().unwrap();
    let folder = top.join("target/staticlib");
    let archive = folder.join("liblizardwire_c.a");
    if !archive.is_file() {
        eprintln!(
            "the library is not built: {} is not there",
            archive.display()
        );
        eprintln!("run tools/library in {}", top.display());
        std::process::exit(1);
    }
    println!("cargo:rerun-if-changed={}", archive.display());
    println!("cargo:rerun-if-changed=build.rs");
    println!("cargo:rustc-link-search=native={}", folder.display());
    println!("cargo:rustc-link-lib=static=lizardwire_c");
}
