//! Links the proved library where the feature `library` asks for it: `./build host` writes it.

fn main() {
    println!("cargo:rerun-if-changed=../target/staticlib/libhost.a");
    if std::env::var_os("CARGO_FEATURE_LIBRARY").is_some() {
        let folder = std::env::var("CARGO_MANIFEST_DIR").expect("cargo says where the package is");
        println!("cargo:rustc-link-search=native={folder}/../target/staticlib");
        println!("cargo:rustc-link-lib=static=host");
    }
}
