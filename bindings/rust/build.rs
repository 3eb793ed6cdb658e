//! Links libcapi.a from the folder that JUVANDEER_LIB names, or else from where `tools/archive` leaves it.

use std::env;
use std::path::PathBuf;

fn main() {
    println!("cargo:rerun-if-changed=build.rs");
    println!("cargo:rerun-if-env-changed=JUVANDEER_LIB");
    let folder = env::var_os("JUVANDEER_LIB").map_or_else(built_here, PathBuf::from);
    let library = folder.join("libcapi.a");
    if !library.is_file() {
        println!(
            "cargo:warning=no libcapi.a in {}: build it with `tools/archive`, or name its folder in JUVANDEER_LIB",
            folder.display()
        );
    }
    println!("cargo:rerun-if-changed={}", library.display());
    println!("cargo:rustc-link-search=native={}", folder.display());
    println!("cargo:rustc-link-lib=static=capi");
}

fn built_here() -> PathBuf {
    let here = env::var_os("CARGO_MANIFEST_DIR").map_or_else(PathBuf::new, PathBuf::from);
    here.join("../../target/staticlib")
}
