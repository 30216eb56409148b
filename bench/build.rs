// Links the static library that `tools/library` writes, and the C library's mathematics.
fn main() {
    let top = std::path::Path::new(&std::env::var("CARGO_MANIFEST_DIR").unwrap()).join("../target/staticlib");
    println!("cargo:rustc-link-search=native={}", top.display());
    println!("cargo:rustc-link-lib=static=lizardwire_c");
    println!("cargo:rustc-link-lib=m");
    println!("cargo:rerun-if-changed={}", top.join("liblizardwire_c.a").display());
}
