//! Says where the library's archive is. Only this package links it.

use std::env;
use std::path::PathBuf;

fn main() {
    println!("cargo:rerun-if-env-changed=FRAME_LIB_DIR");
    let archive = library_folder().join("libframe_c.a");
    println!("cargo:rerun-if-changed={}", archive.display());
    if !archive.is_file() {
        println!("cargo:warning=no archive {}", archive.display());
    }
    println!(
        "cargo:rustc-link-search=native={}",
        library_folder().display()
    );
    println!("cargo:rustc-link-lib=static=frame_c");
}

/// A relative folder counts from the folder above this package.
fn library_folder() -> PathBuf {
    let manifest = env::var_os("CARGO_MANIFEST_DIR").expect("set by cargo");
    let named = env::var_os("FRAME_LIB_DIR").unwrap_or_else(|| "../target/staticlib".into());
    PathBuf::from(manifest).join("..").join(named)
}
