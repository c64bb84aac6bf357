//! Links the library that `make lib` writes.

fn main() {
    let build = concat!(env!("CARGO_MANIFEST_DIR"), "/../../build");
    println!("cargo:rustc-link-search=native={build}");
    println!("cargo:rustc-link-lib=static=cg");
    println!("cargo:rerun-if-changed={build}/libcg.a");
}
