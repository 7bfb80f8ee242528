//! The script first-match, as a copy in a folder of its own, with stand-ins for what it calls: what
//! it says where something is missing, what it calls, in which order, where nothing is, and how it
//! tells what of the proofs is done.

#![allow(clippy::restriction)]

use std::path::PathBuf;
use std::process::Command;

const ROOT: &str = concat!(env!("CARGO_MANIFEST_DIR"), "/..");

/// A folder with the script, and a folder of all commands that it may find. It is outside the
/// checkout, where the kit refuses links and a second crates.txt, and goes with the test.
struct Place {
    folder: PathBuf,
}

impl Drop for Place {
    fn drop(&mut self) {
        let _ = std::fs::remove_dir_all(&self.folder);
    }
}

impl Place {
    fn new(name: &str, commands: &[&str]) -> Place {
        let own = format!("mireladle-{}-{name}", std::process::id());
        let folder = std::env::temp_dir().join(own);
        let _ = std::fs::remove_dir_all(&folder);
        let place = Place { folder };
        let parts = [
            "tools",
            "crates/mireladle/src",
            "crates/mireladle_c/src",
            "bin",
        ];
        for part in parts {
            std::fs::create_dir_all(place.folder.join(part)).unwrap();
        }
        std::fs::write(place.folder.join("crates.txt"), CRATES).unwrap();
        for script in [
            "first-match",
            "tools/build",
            "tools/built",
            "tools/prepare",
            "tools/prove",
        ] {
            place.shell(&format!("cp '{ROOT}/{script}' '{script}'"));
        }
        place.shell("touch crates/mireladle/src/main.rt crates/mireladle/stdin");
        for usual in [
            "awk", "bash", "cp", "dirname", "find", "grep", "mkdir", "mktemp", "rm", "tail",
            "touch",
        ] {
            place.shell(&format!(
                r#"ln -s "$(command -v {usual})" "$PWD/bin/{usual}""#
            ));
        }
        for command in commands {
            // Notes its call.
            let note = format!(
                "echo \"{command} $*\" >> '{}/called'",
                place.folder.display()
            );
            place.shell(&format!(
                "cat > 'bin/{command}' <<'EOF'\n#!/usr/bin/env bash\n{note}\nEOF\nchmod 755 'bin/{command}'"
            ));
            // The kit makes, in the crate's folder, what is built there.
            if *command == "rt" {
                place.shell(&format!("cat >> bin/rt <<'EOF'\n{KIT_MAKES}\nEOF"));
            }
        }
        place
    }

    /// Runs a line of shell in the folder. Scripts are written by it and not by this process, whose
    /// open files other tests could hand on to theirs.
    fn shell(&self, line: &str) {
        let status = Command::new("sh")
            .args(["-c", line])
            .current_dir(&self.folder)
            .status();
        assert!(status.unwrap().success(), "{line}");
    }

    /// Status and messages of the script, and what it called.
    fn first_match(&self) -> (i32, String, String) {
        let bin = self.folder.join("bin");
        let output = Command::new(bin.join("bash"))
            .arg(self.folder.join("first-match"))
            .env("PATH", &bin)
            .output()
            .unwrap();
        let called = std::fs::read_to_string(self.folder.join("called")).unwrap_or_default();
        assert_eq!(String::from_utf8_lossy(&output.stdout), "");
        let message = String::from_utf8_lossy(&output.stderr).into_owned();
        (output.status.code().unwrap(), message, called)
    }
}

/// A stand-in for what the kit makes, which says where it was called.
const KIT_MAKES: &str = r#"name=${PWD##*/}; echo "  in $name" >> ../../called; mkdir -p out
    if [ "$1" = run ]; then : > "out/$name"; else : > "out/lib$name.a"; fi"#;

/// The program stands on 11 crates of the repository and on two of the kit, and the library on one.
const CRATES: &str =
    "# the crates\na:\nb: a\nc: a\nd: b c io\ne: d\nf: e\ng: f\nh: g\ni: h\nj: i\nk: j a\n\
    mireladle_c staticlib: a\nmireladle: k os # z\nz: a\n";

const MISSING: &str = "first-match: nothing was built or run, since these commands are missing:\n";
const KIT: &str = "  rt: the Rattle kit, which proves and builds the program and the library; \
    put its folder bin/ on PATH\n";
const CARGO: &str = "  cargo: Rust, in which the command mireladle-match is written\n";
const COMPILER: &str = "  cc: a C compiler, which links\n";
const SEARCH: &str = "cargo run --quiet --release --offline --manifest-path rust/Cargo.toml \
    --bin mireladle-match -- --program target/bin/mireladle \
    examples/rising-falling.txt examples/rising-falling.csv\n";

#[test]
fn what_is_missing_is_told_before_anything_is_done() {
    for (name, commands, missing) in [
        ("first-none", &[][..], [KIT, CARGO, COMPILER].concat()),
        ("first-kit", &["cargo", "cc"], String::from(KIT)),
        ("first-rust", &["rt"], [CARGO, COMPILER].concat()),
    ] {
        let place = Place::new(name, commands);
        let expected = (1, format!("{MISSING}{missing}"), String::new());
        assert_eq!(place.first_match(), expected, "{name}");
        assert!(!place.folder.join("target").exists(), "{name}");
    }
}

#[test]
fn what_is_there_is_called_in_order() {
    let place = Place::new("first-all", &["rt", "cargo", "cc"]);
    let built = "rt run\n  in mireladle\nrt lib\n  in mireladle_c\n";
    let said = format!("{PROGRAM}{LIBRARY}");
    assert_eq!(place.first_match(), (0, said, format!("{built}{SEARCH}")));
}

const PROGRAM: &str = "mireladle: 12 crates to prove, which takes minutes where none has been \
    proved yet\n";
const LIBRARY: &str = "mireladle_c: 2 crates to prove, which takes minutes where none has been \
    proved yet\n";

/// A stand-in for the kit that prints, for each crate, what the prover prints and its own line.
const KIT_PRINTS: &str = r#"for c in a b c d e f g h i j k mireladle; do
    echo "rt: chose --jobs 2 for $c"; echo "fn $c::proved: proved"; echo "logic=proved functions=1"
    done >&2"#;

#[test]
fn crates_are_counted_and_the_provers_lines_left_out() {
    let place = Place::new("first-counts", &["rt", "cargo", "cc"]);
    place.shell(&format!("cat >> bin/rt <<'EOF'\n{KIT_PRINTS}\nEOF"));
    let (status, said, _) = place.first_match();
    let lines: Vec<_> = said
        .lines()
        .map(|line| line.split(',').next().unwrap())
        .collect();
    let expected = [
        "mireladle: 12 crates to prove",
        "mireladle: 10 of 12 crates proved",
        "mireladle: 12 of 12 crates proved",
    ];
    assert_eq!((status, &lines[..3]), (0, &expected[..]), "{said}");
    assert!(!said.contains("fn "), "{said}");
}

#[test]
fn of_a_proof_that_fails_the_end_is_shown_and_nothing_else_is_done() {
    let place = Place::new("first-fails", &["rt", "cargo", "cc"]);
    // `rt run` says what is proved on standard error.
    let fails = "exec >&2; echo 'fn k::f: not proved: 1 goal'; echo 'rt: the library k did not build, so ..';
        for n in {1..30}; do echo line $n; done; exit 1";
    place.shell(&format!("cat >> bin/rt <<'EOF'\n{fails}\nEOF"));
    let (status, said, called) = place.first_match();
    let tried = (1, "rt run\n  in mireladle\n");
    assert_eq!((status, called.as_str()), tried);
    let failed = "mireladle: `tools/build mireladle` ended with status 1:\n\
        fn k::f: not proved: 1 goal\nrt: the library k did not build, so ..\nline 11\n";
    assert!(said.starts_with(&format!("{PROGRAM}{failed}")), "{said}");
    assert!(said.ends_with("line 29\nline 30\n"), "{said}");
    assert!(!place.folder.join("target/bin/mireladle").exists());
}

#[test]
fn the_kit_is_not_asked_for_where_all_is_built() {
    let place = Place::new("first-built", &["cargo", "cc"]);
    place.shell("mkdir -p target/bin target/staticlib");
    place.shell("touch target/bin/mireladle target/staticlib/libmireladle_c.a");
    let expected = (0, String::new(), String::from(SEARCH));
    assert_eq!(place.first_match(), expected);
}
