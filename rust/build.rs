//! Links libzomuwedli.a: from the folder that ZOMUWEDLI_LIB_DIR names, where the library is installed, or else from the folder to which
//! `make` in the top folder writes it.

use std::path::{Path, PathBuf};

const VARIABLE: &str = "ZOMUWEDLI_LIB_DIR";

fn main() {
    println!("cargo:rerun-if-changed=build.rs");
    println!("cargo:rerun-if-env-changed={VARIABLE}");
    let (folder, help) = match std::env::var_os(VARIABLE) {
        Some(folder) => (PathBuf::from(folder), "it is the folder that ZOMUWEDLI_LIB_DIR names"),
        None => (built(), "run `make` in the top folder first, or name the folder in ZOMUWEDLI_LIB_DIR"),
    };
    let archive = folder.join("libzomuwedli.a");
    println!("cargo:rerun-if-changed={}", archive.display());
    if !archive.exists() {
        eprintln!("{} is missing: {help}", archive.display());
        std::process::exit(1);
    }
    println!("cargo:rustc-link-search=native={}", folder.display());
    println!("cargo:rustc-link-lib=static=zomuwedli");
}

fn built() -> PathBuf {
    let crate_folder = std::env::var_os("CARGO_MANIFEST_DIR").expect("cargo names the folder of the crate");
    Path::new(&crate_folder).join("../target/staticlib")
}
