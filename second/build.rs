//! Links the archive `libplq.a` where it has been built, and sets `cfg(archive)` then.
//!
//! Without it everything but the comparison and the figures works, and those two say what is missing.

use std::env;
use std::path::{Path, PathBuf};

fn main() {
    println!("cargo:rustc-check-cfg=cfg(archive)");
    println!("cargo:rerun-if-env-changed=PLQ_LIB_DIR");
    let dir = archive_dir();
    let archive = dir.join("libplq.a");
    println!("cargo:rerun-if-changed={}", archive.display());
    if archive.is_file() {
        println!("cargo:rustc-cfg=archive");
        println!("cargo:rustc-link-search=native={}", dir.display());
        println!("cargo:rustc-link-lib=static=plq");
    }
}

/// The directory named by `PLQ_LIB_DIR`, or where the archive is built in this repository.
fn archive_dir() -> PathBuf {
    match env::var_os("PLQ_LIB_DIR") {
        Some(dir) => PathBuf::from(dir),
        None => {
            let here = env::var("CARGO_MANIFEST_DIR").expect("cargo names the package's directory");
            Path::new(&here).join("../target/staticlib")
        }
    }
}
