fn main() {
    let root = std::env::var("CARGO_MANIFEST_DIR").unwrap();
    println!("cargo:rustc-link-search=native={root}/../crates/renderer/out");
    println!("cargo:rustc-link-lib=static=renderer");
    println!("cargo:rerun-if-changed={root}/../crates/renderer/out/librenderer.a");
}
