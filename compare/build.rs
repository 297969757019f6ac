//! Links the proved static libraries that `make library` writes.

fn main() {
    let root = std::env::var("CARGO_MANIFEST_DIR").expect("cargo sets it");
    println!("cargo:rustc-link-search=native={root}/../target/staticlib");
    for library in ["leaves", "board"] {
        println!("cargo:rustc-link-lib=static={library}");
        println!("cargo:rerun-if-changed={root}/../target/staticlib/lib{library}.a");
    }
}
