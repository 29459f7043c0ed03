//! Hands the linker the archive of the library, for the program compare alone.

use std::env;
use std::path::Path;

fn main() {
    println!("cargo:rerun-if-env-changed=BREAKWARP_LIB_DIR");
    let library = env::var_os("CARGO_FEATURE_LIBRARY").is_some();
    let mock = env::var_os("CARGO_FEATURE_MOCK").is_some();
    if !library || mock {
        return;
    }
    let directory = env::var("BREAKWARP_LIB_DIR").unwrap_or_else(|_| "../target/staticlib".to_string());
    let archive = Path::new(&directory).join("libbreakwarp.a");
    // A relative directory is taken from this folder, where the build script runs.
    let archive = archive.canonicalize().unwrap_or_else(|e| panic!("{}: {e}", archive.display()));
    println!("cargo:rerun-if-changed={}", archive.display());
    println!("cargo:rustc-link-arg-bin=compare={}", archive.display());
}
