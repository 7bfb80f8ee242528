//! Links the product's static library into the program `compare` where it is
//! there, and sets the cfg `mireladle`; all else in this package does without.
//! MIRELADLE_LIB names the library's folder, and one that names none is an
//! error; without it, the place where `tools/build mireladle_c` puts the library
//! is looked at.

use std::env;
use std::path::PathBuf;

fn main() {
    println!("cargo::rustc-check-cfg=cfg(mireladle)");
    println!("cargo::rerun-if-env-changed=MIRELADLE_LIB");
    println!("cargo::rerun-if-changed=build.rs");
    let package = PathBuf::from(env::var_os("CARGO_MANIFEST_DIR").unwrap_or_default());
    let named = env::var_os("MIRELADLE_LIB").filter(|folder| !folder.is_empty());
    let folder = match &named {
        Some(folder) => package.join(folder),
        None => package.join("../target/staticlib"),
    };
    let library = folder.join("libmireladle_c.a");
    println!("cargo::rerun-if-changed={}", library.display());
    if library.is_file() {
        println!("cargo::rustc-cfg=mireladle");
        println!("cargo::rustc-link-arg-bin=compare={}", library.display());
    } else if named.is_some() {
        panic!("MIRELADLE_LIB names no library: {}", library.display());
    }
}
