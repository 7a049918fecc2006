//! Links what hal does not: the static library of the product by value, which `rt lib` makes in `crates/bench_calls`.

fn main() {
    let folder = concat!(env!("CARGO_MANIFEST_DIR"), "/../crates/bench_calls/out");
    println!("cargo:rustc-link-search=native={folder}");
    println!("cargo:rustc-link-lib=static=bench_calls");
    println!("cargo:rerun-if-changed={folder}/libbench_calls.a");
}
