//! Links the product: the static library that `rt lib` makes in `crates/polvihe`.

use std::path::Path;

fn main() {
    let folder = concat!(env!("CARGO_MANIFEST_DIR"), "/../crates/polvihe/out");
    let library = format!("{folder}/libpolvihe.a");
    println!("cargo:rerun-if-changed={library}");
    if !Path::new(&library).exists() {
        panic!("{library} is not there: make it by `rt lib` in crates/polvihe");
    }
    println!("cargo:rustc-link-search=native={folder}");
    println!("cargo:rustc-link-lib=static=polvihe");
}
