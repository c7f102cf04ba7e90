//! Links the proved library: `./build host` writes it.

fn main() {
    println!("cargo:rerun-if-changed=../target/staticlib/libhost.a");
    let folder = std::env::var("CARGO_MANIFEST_DIR").expect("cargo says where the package is");
    println!("cargo:rustc-link-search=native={folder}/../target/staticlib");
    println!("cargo:rustc-link-lib=static=host");
}
