//! Links the archive that PUDVIREZ_ARCHIVE names, if it is set.

use std::env;
use std::path::{Path, PathBuf};

const VARIABLE: &str = "PUDVIREZ_ARCHIVE";

fn main() {
    println!("cargo::rerun-if-changed=build.rs");
    println!("cargo::rerun-if-env-changed={VARIABLE}");
    println!("cargo::rustc-check-cfg=cfg(archive)");
    if let Some(path) = env::var_os(VARIABLE) {
        link(Path::new(&path));
    }
}

/// A relative path counts from the repository's top.
fn link(path: &Path) {
    let top = PathBuf::from(env::var_os("CARGO_MANIFEST_DIR").expect("cargo sets it"));
    let path = top.join("../..").join(path);
    match path.canonicalize() {
        Ok(archive) => {
            println!("cargo::rerun-if-changed={}", archive.display());
            println!("cargo::rustc-cfg=archive");
            println!("cargo::metadata=linked=1");
            let (folder, name) = (archive.parent(), archive.file_name());
            let (folder, name) = folder.zip(name).expect("a file in a folder");
            println!("cargo::rustc-link-search=native={}", folder.display());
            println!("cargo::rustc-link-lib=static:+verbatim={}", name.display());
        }
        Err(error) => println!("cargo::error={VARIABLE}: {}: {error}", path.display()),
    }
}
