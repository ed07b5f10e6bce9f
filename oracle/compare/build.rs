//! Sets `archive` where the crate of that name links one. The build step of bench and waits too.

use std::env;

fn main() {
    println!("cargo::rerun-if-changed=../compare/build.rs");
    println!("cargo::rerun-if-env-changed=DEP_PUDVIREZ_LINKED");
    println!("cargo::rustc-check-cfg=cfg(archive)");
    if env::var_os("DEP_PUDVIREZ_LINKED").is_some() {
        println!("cargo::rustc-cfg=archive");
    }
}
