//! Links `libcapi.a` from the folder PUDVIREZ_LIB_DIR, or from where `tools/archive` puts it.
use std::path::{Path, PathBuf};

const DEFAULT: &str = "../../target/staticlib";

fn folder() -> PathBuf {
    match std::env::var_os("PUDVIREZ_LIB_DIR") {
        Some(named) => PathBuf::from(named),
        None => Path::new(env!("CARGO_MANIFEST_DIR")).join(DEFAULT),
    }
}

fn main() {
    println!("cargo:rerun-if-env-changed=PUDVIREZ_LIB_DIR");
    let archive = folder().join("libcapi.a");
    println!("cargo:rerun-if-changed={}", archive.display());
    let Ok(found) = archive.canonicalize() else {
        eprintln!(
            "error: {} is missing: run bindings/test.sh or `tools/archive` first, \
             or name its folder in PUDVIREZ_LIB_DIR",
            archive.display()
        );
        std::process::exit(1);
    };
    let folder = found.parent().expect("a file has a folder");
    println!("cargo:rustc-link-search=native={}", folder.display());
    println!("cargo:rustc-link-lib=static=capi");
}
