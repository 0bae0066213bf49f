//! Links the proved static library, build/libgeckoneedle.a.

use std::env;
use std::path::PathBuf;

fn main() {
    let package = PathBuf::from(env::var("CARGO_MANIFEST_DIR").expect("cargo says where the package is"));
    let folder = package.join("../../build");
    let library = folder.join("libgeckoneedle.a");
    println!("cargo:rerun-if-changed={}", library.display());
    if !library.exists() {
        eprintln!("build/libgeckoneedle.a is missing: run `make lib` first.");
        std::process::exit(1);
    }
    println!("cargo:rustc-link-search=native={}", folder.display());
    println!("cargo:rustc-link-lib=static=geckoneedle");
}
