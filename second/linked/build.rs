//! Links the static library that exports the calls.

use std::{env, path::Path};

fn main() {
    let manifest = env::var("CARGO_MANIFEST_DIR").expect("cargo gives the manifest's folder");
    let folder = Path::new(&manifest).join("../../target/staticlib");
    println!("cargo:rerun-if-changed=build.rs");
    println!("cargo:rustc-link-search=native={}", folder.display());
    println!("cargo:rustc-link-lib=static=cabi");
    println!("cargo:rerun-if-changed={}", folder.join("libcabi.a").display());
}
