//! Links libs1d.a from ../target/staticlib, or from the folder that S1D_LIB names. Without the
//! archive the crate builds too, and has no `unit`.

use std::env;
use std::path::PathBuf;

fn main() {
    let folder = match env::var_os("S1D_LIB") {
        Some(folder) => PathBuf::from(folder),
        None => {
            PathBuf::from(env::var_os("CARGO_MANIFEST_DIR").unwrap()).join("../target/staticlib")
        }
    };
    let archive = folder.join("libs1d.a");
    println!("cargo:rerun-if-env-changed=S1D_LIB");
    println!("cargo:rerun-if-changed=build.rs");
    println!("cargo:rerun-if-changed={}", archive.display());
    println!("cargo:rustc-check-cfg=cfg(unit)");
    if archive.exists() {
        println!("cargo:rustc-cfg=unit");
        println!("cargo:rustc-link-search=native={}", folder.display());
        println!("cargo:rustc-link-lib=static=s1d");
    }
}
