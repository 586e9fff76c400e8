//! Finds the static library that the toolchain makes of the crate `boundary`.

use std::path::Path;

fn main() {
    let folder = Path::new(env!("CARGO_MANIFEST_DIR")).join("../../crates/boundary");
    let library = folder.join("out/libboundary.a");
    println!("cargo:rerun-if-changed={}", library.display());
    if !library.is_file() {
        println!("cargo:warning=the proved calls are not built: run `rt lib` in the folder crates/boundary first");
        eprintln!("there is no crates/boundary/out/libboundary.a: run `rt lib` in the folder crates/boundary first");
        std::process::exit(1);
    }
    println!("cargo:rustc-link-search=native={}", folder.join("out").display());
    println!("cargo:rustc-link-lib=static=boundary");
}
