//! Tells cargo where libboundary.a is: in the folder that BLENKYSNOW_LIB names, else in the repository's target/staticlib.
use std::path::{Path, PathBuf};

fn main() {
    println!("cargo:rerun-if-env-changed=BLENKYSNOW_LIB");
    let arch = std::env::var("CARGO_CFG_TARGET_ARCH").unwrap_or_default();
    assert!(arch == "x86_64", "libboundary.a links only into x86-64 programs, and this is {arch}");
    let folder = match std::env::var_os("BLENKYSNOW_LIB") {
        Some(folder) => PathBuf::from(folder),
        None => Path::new(env!("CARGO_MANIFEST_DIR")).join("../target/staticlib"),
    };
    let archive = folder.join("libboundary.a");
    assert!(archive.is_file(), "no {}: run `sh tools/build boundary`", archive.display());
    println!("cargo:rerun-if-changed={}", archive.display());
    println!("cargo:rustc-link-search=native={}", folder.display());
    println!("cargo:rustc-link-lib=static=boundary");
}
