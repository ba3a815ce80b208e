//! Links the static library that `make` writes to target/staticlib of the repository.
//! Another folder can be named by the environment variable FAHKELO_LIB.

use std::path::PathBuf;

fn main() {
    println!("cargo:rerun-if-env-changed=FAHKELO_LIB");
    let folder = match std::env::var_os("FAHKELO_LIB") {
        Some(folder) => PathBuf::from(folder),
        None => PathBuf::from(std::env::var_os("CARGO_MANIFEST_DIR").expect("set by cargo"))
            .join("../target/staticlib"),
    };
    let archive = folder.join("libcapi.a");
    if !archive.exists() {
        panic!("no {}: run `make target/staticlib/libcapi.a` in the repository first", archive.display());
    }
    println!("cargo:rerun-if-changed={}", archive.display());
    println!("cargo:rustc-link-search=native={}", folder.display());
    println!("cargo:rustc-link-lib=static=capi");
}
