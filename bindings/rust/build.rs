//! Links libyuccadice.a of $YUCCADICE_LIB_DIR, or of the repository's target/staticlib, where `tools/build library` writes it, or of the installed tree.

use std::env;
use std::path::PathBuf;

fn main() {
    println!("cargo:rerun-if-env-changed=YUCCADICE_LIB_DIR");
    let here = PathBuf::from(env::var("CARGO_MANIFEST_DIR").expect("cargo sets it"));
    let directory = match env::var("YUCCADICE_LIB_DIR") {
        Ok(directory) => PathBuf::from(directory),
        Err(_) if here.join("../../include").is_dir() => here.join("../../target/staticlib"),
        Err(_) => here.join("../../../lib"), // PREFIX/share/yuccadice/rust
    };
    let archive = directory.join("libyuccadice.a");
    println!("cargo:rerun-if-changed={}", archive.display());
    if !archive.is_file() {
        panic!("there is no {}: 'tools/build library' writes it", archive.display());
    }
    println!("cargo:rustc-link-search=native={}", directory.display());
    println!("cargo:rustc-link-lib=static=yuccadice");
}
