//! How much stack a call takes. stack.c, beside this file, measures it over many shapes of queries and
//! fails beyond the number in the C header; the crate names the same number; and a thread that has
//! it, and what the crate's own documents add to it, runs the queries that take the most.
//! Weakness: measured, so a query worse than all of these may exist; the number has a reserve.

#![allow(clippy::restriction)]

use mireladle::{lent, Feed, Limits, Query, Rows};
use std::path::Path;
use std::process::Command;

const ROOT: &str = concat!(env!("CARGO_MANIFEST_DIR"), "/..");
/// What the documents tell a caller to give a thread.
const THREAD: usize = 96 << 10;

/// The compiler `cc`, or the one that CC names, makes the program; it prints its table either way.
#[test]
fn no_call_takes_more_than_the_header_says() {
    let program = Path::new(env!("CARGO_TARGET_TMPDIR")).join("stack");
    let built = Command::new(std::env::var_os("CC").unwrap_or_else(|| "cc".into()))
        .args([
            "-std=c11",
            "-O2",
            "-Wall",
            "-Wextra",
            "-Wpedantic",
            "-Werror",
        ])
        .arg(format!("-I{ROOT}/include"))
        .arg(format!("{}/tests/stack.c", env!("CARGO_MANIFEST_DIR")))
        .args([env!("MIRELADLE_LIBRARY"), "-pthread", "-o"])
        .arg(&program)
        .output()
        .unwrap();
    assert!(
        built.status.success(),
        "{}",
        String::from_utf8_lossy(&built.stderr)
    );
    let ran = Command::new(&program).output().unwrap();
    let table = String::from_utf8_lossy(&ran.stdout);
    println!("{table}");
    assert!(ran.status.success(), "{}\n{table}", ran.status);
}

#[test]
fn the_crate_names_the_number_of_the_header() {
    let header = std::fs::read_to_string(format!("{ROOT}/include/mireladle.h")).unwrap();
    let stated = header
        .lines()
        .find_map(|line| line.strip_prefix("#define MIRELADLE_STACK "))
        .unwrap();
    assert_eq!(stated.parse(), Ok(lent::STACK));
}

/// A stack that is too small ends the whole test program.
#[test]
fn a_thread_with_the_stack_that_the_documents_name() {
    let branches = format!("{}^{}{}", "(".repeat(8), "|^".repeat(119), ")".repeat(8));
    let flags = String::from("(((A{,99}B{,27})*)*)*");
    let accepted = ["^".repeat(255), branches, flags];
    let refused = format!("{}{}", "(".repeat(8), "^".repeat(248));
    let search = move || {
        let found = accepted.map(|text| {
            let query = Query::builder(1).pattern(&text).build().unwrap();
            let mut feed = Feed::new(&query, 3, Limits::default()).unwrap();
            feed.push(Rows::new(&[1, 2, 3], 1)).unwrap();
            feed.finish().unwrap();
            query.search(Rows::new(&[1, 2, 3], 1)).unwrap().len()
        });
        (found, Query::builder(1).pattern(&refused).build().is_err())
    };
    let thread = std::thread::Builder::new()
        .stack_size(THREAD)
        .spawn(search)
        .unwrap();
    assert_eq!(thread.join().unwrap(), ([1, 1, 1], true));
}
