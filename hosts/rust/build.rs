//! Links the archive, and names the module that tests/lua_rs.rs gives to the comparison's stand-ins.
//!
//! DIGRIBBON_ARCHIVE: the static archive; else ../../target/staticlib/libdigribbon.a.
//! A relative path counts from this folder.

use std::path::{Path, PathBuf};
use std::{env, fs};

fn main() {
    println!("cargo::rerun-if-changed=build.rs");
    println!("cargo::rerun-if-env-changed=DIGRIBBON_ARCHIVE");
    let here = PathBuf::from(env::var_os("CARGO_MANIFEST_DIR").expect("cargo sets CARGO_MANIFEST_DIR"));
    let [arch, os, width] = ["ARCH", "OS", "POINTER_WIDTH"]
        .map(|name| env::var(format!("CARGO_CFG_TARGET_{name}")).expect("cargo sets the target's variables"));
    match other_target(&arch, &os, &width) {
        Some(error) => println!("cargo::error={error}"),
        None => link(&here),
    }

    let module = format!("#[path = {:?}]\npub mod pack;\n", here.join("examples/lua_rs/pack.rs"));
    let out = PathBuf::from(env::var_os("OUT_DIR").expect("cargo sets OUT_DIR"));
    fs::write(out.join("pack_module.rs"), module).expect("OUT_DIR can be written");
}

/// What to say where the target is none that the archive is made for.
pub(crate) fn other_target(arch: &str, os: &str, width: &str) -> Option<String> {
    if (arch, os, width) == ("x86_64", "linux", "64") {
        return None;
    }
    Some(format!(
        "Digribbon's archive is for x86-64 Linux with pointers of 64 bits, and the target is {arch} {os} with pointers of {width} bits. Build with `--target x86_64-unknown-linux-gnu`."
    ))
}

fn link(here: &Path) {
    let setting = env::var_os("DIGRIBBON_ARCHIVE");
    let archive = here.join(setting.unwrap_or_else(|| "../../target/staticlib/libdigribbon.a".into()));
    if !archive.is_file() {
        println!(
            "cargo::error=The archive is missing: there is no file {}. Run `tools/build archive` in the repository's top folder, or set DIGRIBBON_ARCHIVE.",
            archive.display()
        );
        return;
    }
    let archive = archive.canonicalize().expect("a file has a path");
    let folder = archive.parent().expect("a file has a folder");
    let name = archive.strip_prefix(folder).expect("a folder's path begins that of its file");
    println!("cargo::rerun-if-changed={}", archive.display());
    println!("cargo::rustc-link-search=native={}", folder.display());
    println!("cargo::rustc-link-lib=static:+verbatim={}", name.display());
    println!("cargo::rustc-link-lib=m");
}
