//! Lays the unchanged sources of throttle-net into OUT_DIR, each as a module.

use std::path::{Path, PathBuf};
use std::{env, fs};

const FILES: [&str; 6] = ["circuit", "decision", "error", "limiter", "obs", "wait"];

/// The `src` folder of jamesgober/throttle-net at 9650d9a7d1, from the repository's top, unless
/// THROTTLE_SRC says where it is.
const BESIDE: &str = "../shared/docs/src";

fn main() {
    println!("cargo::rerun-if-changed=build.rs");
    println!("cargo::rerun-if-env-changed=THROTTLE_SRC");
    switch_features();
    let source = source_folder();
    if let Err(what) = lay_out(&source, &folder("OUT_DIR")) {
        println!(
            "cargo::error={what}; THROTTLE_SRC must name the src folder of jamesgober/throttle-net \
             at 9650d9a7d1 (default: {BESIDE} from the repository's top)"
        );
    }
}

/// The features that the breaker needs; the others are known and stay off.
fn switch_features() {
    println!("cargo::rustc-cfg=feature=\"circuit-breaker\"");
    println!("cargo::rustc-cfg=feature=\"runtime\"");
    println!(
        "cargo::rustc-check-cfg=cfg(feature, values(\"circuit-breaker\", \"runtime\", \
         \"metrics\", \"tracing\", \"adaptive\"))"
    );
    println!("cargo::rustc-check-cfg=cfg(docsrs)");
}

fn folder(variable: &str) -> PathBuf {
    env::var_os(variable)
        .expect("cargo sets this variable")
        .into()
}

/// A relative THROTTLE_SRC counts from the repository's top.
fn source_folder() -> PathBuf {
    let top = folder("CARGO_MANIFEST_DIR").join("../..");
    top.join(env::var_os("THROTTLE_SRC").map_or(BESIDE.into(), PathBuf::from))
}

fn lay_out(source: &Path, out: &Path) -> Result<(), String> {
    let mut root = String::new();
    for name in FILES {
        lay_out_one(name, source, out)?;
        root += &format!("#[allow(dead_code)]\n#[path = \"{name}.rs\"]\nmod {name};\n");
    }
    write(&out.join("sources.rs"), &root)
}

fn lay_out_one(name: &str, source: &Path, out: &Path) -> Result<(), String> {
    let from = source.join(name).with_extension("rs");
    println!("cargo::rerun-if-changed={}", from.display());
    let mut text = fs::read_to_string(&from).map_err(|e| format!("{}: {e}", from.display()))?;
    if name == "circuit" {
        text += &door();
    }
    write(&out.join(name).with_extension("rs"), &text)
}

/// The line after circuit.rs: a child module, which sees its private items.
fn door() -> String {
    let inside = folder("CARGO_MANIFEST_DIR").join("src/inside.rs");
    format!("\n#[path = {inside:?}]\npub mod inside;\n")
}

fn write(path: &Path, text: &str) -> Result<(), String> {
    fs::write(path, text).map_err(|e| format!("{}: {e}", path.display()))
}
