//! Links the port's static library where the variable JUVANDEER_LIB names the folder of libcapi.a.

use std::env;
use std::path::Path;

fn main() {
    println!("cargo:rerun-if-changed=build.rs");
    println!("cargo:rerun-if-env-changed=JUVANDEER_LIB");
    println!("cargo:rustc-check-cfg=cfg(port)");
    if let Ok(folder) = env::var("JUVANDEER_LIB") {
        let library = Path::new(&folder).join("libcapi.a");
        println!("cargo:rustc-cfg=port");
        println!("cargo:rustc-link-search=native={folder}");
        println!("cargo:rustc-link-lib=static=capi");
        println!("cargo:rerun-if-changed={}", library.display());
    }
}
