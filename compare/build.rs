//! Finds the original's pack.rs and hands it to the compiler. Our archive comes with the Rust crate (../hosts/rust).
//!
//! DIGRIBBON_ORIGINAL: the folder that holds `crates/luars/..`; else ../../shared/docs/src.
//! A relative path counts from this folder.

use std::path::{Path, PathBuf};
use std::{env, fs};

const PACK: &str = "crates/luars/src/stdlib/string/pack.rs";

fn main() {
    let original = place("DIGRIBBON_ORIGINAL", "../../shared/docs/src").join(PACK);
    println!("cargo::rerun-if-changed=build.rs");
    if !original.is_file() {
        println!(
            "cargo::error=The original is missing: there is no file {}. Set DIGRIBBON_ORIGINAL to the folder that holds crates/luars.",
            original.display()
        );
        return;
    }
    let original = original.canonicalize().expect("a file has a path");
    println!("cargo::rerun-if-changed={}", original.display());

    let module = format!("#[path = {original:?}]\npub mod pack;\n");
    let out = PathBuf::from(env::var_os("OUT_DIR").expect("cargo sets OUT_DIR"));
    fs::write(out.join("pack_module.rs"), module).expect("OUT_DIR can be written");
}

/// The path in a variable, else a default, from this folder.
fn place(variable: &str, default: &str) -> PathBuf {
    println!("cargo::rerun-if-env-changed={variable}");
    let here = env::var_os("CARGO_MANIFEST_DIR").expect("cargo sets CARGO_MANIFEST_DIR");
    let path = env::var_os(variable).map_or_else(|| PathBuf::from(default), PathBuf::from);
    Path::new(&here).join(path)
}
