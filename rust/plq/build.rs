//! Links `libplq.a`: from the directory in `PLQ_LIB_DIR`, or from where this repository builds it.

use std::env;
use std::path::{Path, PathBuf};

fn main() {
    println!("cargo:rerun-if-env-changed=PLQ_LIB_DIR");
    let dir = archive_dir();
    let archive = dir.join("libplq.a");
    println!("cargo:rerun-if-changed={}", archive.display());
    assert!(
        archive.is_file(),
        "there is no {}: build it with `tools/archive`, or name its directory in PLQ_LIB_DIR",
        archive.display()
    );
    println!("cargo:rustc-link-search=native={}", dir.display());
    println!("cargo:rustc-link-lib=static=plq");
}

fn archive_dir() -> PathBuf {
    match env::var_os("PLQ_LIB_DIR") {
        Some(dir) => PathBuf::from(dir),
        None => {
            let here = env::var("CARGO_MANIFEST_DIR").expect("cargo names the package's directory");
            Path::new(&here).join("../../target/staticlib")
        }
    }
}
