//! Links the library of preparing and running, where it is there: `tools/build bench_c` builds it,
//! and so does `bench/run`. Without it the bench has no workload `prepared`. And looks whether the
//! product's library, which the package `mireladle` links, has an allowance of steps, the
//! depot-by-month table and rows in lots: what an older one that MIRELADLE_LIB names has not is not
//! measured.

use std::env;
use std::fs;
use std::path::PathBuf;

fn main() {
    link_bench_c();
    look_for(
        "mireladle_search_within",
        "search_within",
        "no allowances are measured",
    );
    look_for(
        "mireladle_depots_partition",
        "depots",
        "no depot-by-month table is measured",
    );
    look_for("mireladle_more", "lots", "no rows in lots are measured");
}

fn link_bench_c() {
    let package = PathBuf::from(env::var_os("CARGO_MANIFEST_DIR").unwrap_or_default());
    let library = package.join("../target/staticlib/libbench_c.a");
    println!("cargo:rerun-if-changed=build.rs");
    println!("cargo:rerun-if-changed={}", library.display());
    println!("cargo:rustc-check-cfg=cfg(bench_c)");
    if library.exists() {
        // By its path and not by its name: a folder that MIRELADLE_LIB names may have one too.
        println!("cargo:rustc-link-arg={}", library.display());
        println!("cargo:rustc-cfg=bench_c");
    } else {
        println!(
            "cargo:warning={} is missing: run `tools/build bench_c`, or nothing is run prepared",
            library.display()
        );
    }
}

/// Sets a name for `cfg` where the product's library has a function, and warns where it has not.
fn look_for(function: &str, known: &str, otherwise: &str) {
    println!("cargo:rustc-check-cfg=cfg({known})");
    // The build script of `mireladle` tells which library it links.
    let library = PathBuf::from(env::var_os("DEP_MIRELADLE_C_LIBRARY").unwrap_or_default());
    println!("cargo:rerun-if-changed={}", library.display());
    // A name in the archive's table of symbols ends in a byte 0.
    let name = format!("{function}\0").into_bytes();
    let archive = fs::read(&library).unwrap_or_default();
    if archive.windows(name.len()).any(|bytes| bytes == name) {
        println!("cargo:rustc-cfg={known}");
    } else {
        println!(
            "cargo:warning={} has no {function}: {otherwise}",
            library.display()
        );
    }
}
