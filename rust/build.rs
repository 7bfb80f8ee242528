//! Links the static library. It is looked for in the folder that the environment variable MIRELADLE_LIB names (a
//! relative one counts from this package), and otherwise where `tools/build mireladle_c` puts it.

use std::env;
use std::path::PathBuf;

fn main() {
    let package = PathBuf::from(env::var_os("CARGO_MANIFEST_DIR").unwrap_or_default());
    let folder = match env::var_os("MIRELADLE_LIB") {
        Some(named) if !named.is_empty() => package.join(named),
        _ => package.join("../target/staticlib"),
    };
    let library = folder.join("libmireladle_c.a");
    // Only a warning: `cargo check` and `cargo doc` do without the library.
    if !library.exists() {
        println!(
            "cargo:warning={} is missing: run `tools/build mireladle_c`, or name the library's folder in MIRELADLE_LIB",
            library.display()
        );
    }
    println!("cargo:rerun-if-env-changed=MIRELADLE_LIB");
    println!("cargo:rerun-if-changed=build.rs");
    println!("cargo:rerun-if-changed={}", library.display());
    println!("cargo:rustc-link-search=native={}", folder.display());
    println!("cargo:rustc-link-lib=static=mireladle_c");
    // The tests that build the C example link the same library.
    println!("cargo:rustc-env=MIRELADLE_LIBRARY={}", library.display());
    // For build scripts of packages that stand on this one, as DEP_MIRELADLE_C_LIBRARY.
    println!("cargo:library={}", library.display());
}
