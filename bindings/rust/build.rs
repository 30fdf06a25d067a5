//! Names the folder of the library for C: what HELGROTHY_LIB_DIR says, or where `make lib` builds it.

use std::env;
use std::path::PathBuf;

fn main() {
    println!("cargo::rerun-if-env-changed=HELGROTHY_LIB_DIR");
    let folder = match env::var_os("HELGROTHY_LIB_DIR") {
        Some(folder) => PathBuf::from(folder),
        None => PathBuf::from(env!("CARGO_MANIFEST_DIR")).join("../out"),
    };
    let library = folder.join("libhelgrothy.a");
    println!("cargo::rerun-if-changed={}", library.display());
    if !library.exists() {
        println!("cargo::error=no {}: run `make lib`, or set HELGROTHY_LIB_DIR", library.display());
    }
    println!("cargo::rustc-link-search=native={}", folder.display());
}
