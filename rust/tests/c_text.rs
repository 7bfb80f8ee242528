//! The C face over the reader of query text: C and C++ take its header without a warning, its
//! example reads a file and prints W1's match, and no text, pointer or cell upsets it.

#![allow(clippy::restriction)]

use std::path::{Path, PathBuf};
use std::process::{Command, Output};

const ROOT: &str = concat!(env!("CARGO_MANIFEST_DIR"), "/..");
const WARNINGS: [&str; 4] = ["-Wall", "-Wextra", "-Wpedantic", "-Werror"];

fn succeed(command: &mut Command) -> Output {
    let output = command.output().unwrap();
    let message = String::from_utf8_lossy(&output.stderr);
    assert!(output.status.success(), "{command:?}\n{message}");
    output
}

/// The static library, built beside this package's own files.
fn library() -> PathBuf {
    let command = Path::new(env!("CARGO_BIN_EXE_mireladle-match"));
    let folder = command.parent().unwrap();
    let mut cargo = Command::new(env!("CARGO"));
    cargo.args(["build", "--offline", "--quiet", "-p", "mireladle_text"]);
    if folder.ends_with("release") {
        cargo.arg("--release");
    }
    succeed(cargo.current_dir(env!("CARGO_MANIFEST_DIR")));
    folder.join("libmireladle_text.a")
}

fn build(language: &[&str], source: &Path, name: &str) -> PathBuf {
    let program = Path::new(env!("CARGO_TARGET_TMPDIR")).join(name);
    let mut compiler = Command::new(language[0]);
    compiler.args(&language[1..]).args(WARNINGS);
    compiler.arg(format!("-I{ROOT}/include")).arg(source);
    compiler.arg(library()).arg("-o").arg(&program);
    succeed(compiler.args(["-lpthread", "-ldl", "-lm"]));
    program
}

#[test]
fn the_example_reads_a_file_and_searches() {
    let program = build(
        &["cc"],
        Path::new(&format!("{ROOT}/examples/text.c")),
        "text",
    );
    let query = format!("{ROOT}/examples/rising-falling.txt");
    let prices = ["100", "110", "120", "115", "130"];
    let output = succeed(Command::new(&program).arg(query).args(prices));
    assert_eq!(
        String::from_utf8_lossy(&output.stdout),
        "price: answer 0\nmatch 1 at row 1: AAB, COUNT(A) 2, LAST(B.price) 115\n"
    );
    let query = format!("{ROOT}/examples/outside.txt");
    let prices = ["100", "105", "120", "999", "118", "121", "0"];
    let output = succeed(Command::new(&program).arg(query).args(prices));
    assert_eq!(
        String::from_utf8_lossy(&output.stdout),
        "price: answer 0\nmatch 1 at row 2: OOO, COUNT(O) 3, FIRST(O.price) 120\n\
         match 2 at row 6: O, COUNT(O) 1, FIRST(O.price) 0\n"
    );
    let wrong = Path::new(env!("CARGO_TARGET_TMPDIR")).join("text-wrong.txt");
    std::fs::write(&wrong, "pattern: A\nA: price >\n").unwrap();
    let output = Command::new(&program).arg(&wrong).output().unwrap();
    let message = String::from_utf8_lossy(&output.stderr);
    assert_eq!(output.status.code(), Some(2));
    let expected = ":2:11: expected a whole number or a column, found the end of the line\n";
    assert!(message.ends_with(expected), "{message}");
}

/// A program that is C and C++ alike. Its exit status is the number of what went wrong.
const BOTH: &str = r#"
#include <string.h>
#include "mireladle_text.h"
#include "mireladle_text.h"
static mireladle_text *read_text(const char *text) { return mireladle_text_read(text, strlen(text)); }
int main(void) {
    mireladle_text *text = read_text("PATTERN (A B)\nDEFINE A AS event = 'on', C AS time > 1\n"
                                     "MEASURES LAST(A.time) AS \"end\"\nevent: on=1, *=0");
    if (mireladle_text_fault(text) != NULL || mireladle_text_fault_line(text) != 0) return 1;
    if (mireladle_text_fault_column(text) != 0 || mireladle_text_query(text) == NULL) return 2;
    if (mireladle_text_query_length(text) < 20) return 3;
    if (mireladle_text_names(text) != 2 || strcmp(mireladle_text_name(text, 0), "event") != 0) return 4;
    if (mireladle_text_name(text, 2) != NULL || mireladle_text_name(text, (size_t)-1) != NULL) return 5;
    if (mireladle_text_titles(text) != 1 || strcmp(mireladle_text_title(text, 0), "end") != 0) return 6;
    if (mireladle_text_warnings(text) != 2 || mireladle_text_warning(text, 2) != NULL) return 7;
    if (strncmp(mireladle_text_warning(text, 0), "1:12: B has no DEFINE", 21) != 0) return 8;
    int32_t number = 77;
    if (mireladle_text_cell(text, 0, "on", 2, &number) != 1 || number != 1) return 9;
    if (mireladle_text_cell(text, 0, "else", 4, &number) != 1 || number != 0) return 10;
    if (mireladle_text_cell(text, 1, " 1970-01-02", 11, &number) != 1 || number != 86400) return 11;
    if (mireladle_text_cell(text, 1, "x", 1, &number) != 0 || number != 86400) return 12;
    if (mireladle_text_cell(text, 2, "1", 1, &number) != 0) return 13;
    if (mireladle_text_cell(text, 1, NULL, 1, &number) || mireladle_text_cell(text, 1, "1", 1, NULL)) return 14;
    mireladle_text_free(text);
    /* The library refuses it, and not the reader. */
    text = read_text("pattern: A B**");
    if (mireladle_text_fault_line(text) != 1 || mireladle_text_fault_column(text) != 14) return 20;
    if (mireladle_text_query(text) != NULL || mireladle_text_query_length(text) != 0) return 21;
    if (strstr(mireladle_text_fault(text), "expected a letter A to Z") == NULL) return 22;
    if (mireladle_text_cell(text, 0, "1", 1, &number) != 0) return 23;
    mireladle_text_free(text);
    /* A condition with OR and NOT, and one that is cut inside its parentheses. */
    text = read_text("pattern: A\nA: NOT (time BETWEEN 1 AND 5 OR event IN ('on', 'off'))\nevent: on=1, off=2");
    if (mireladle_text_fault(text) != NULL || mireladle_text_query_length(text) != 6 + 5 + 4 + 2 + 4 * 13 + 4 + 6) return 24;
    if (mireladle_text_query(text)[13] != 6 || mireladle_text_query(text)[16] != 8) return 25;
    mireladle_text_free(text);
    text = read_text("pattern: A\nA: NOT (time BETWEEN 1 AND 5");
    if (mireladle_text_fault_line(text) != 2 || mireladle_text_fault_column(text) != 29) return 26;
    if (strstr(mireladle_text_fault(text), "expected AND, OR or `)`") == NULL) return 27;
    mireladle_text_free(text);
    text = mireladle_text_read(NULL, 5);
    if (mireladle_text_fault_line(text) != 1) return 30;
    mireladle_text_free(text);
    text = mireladle_text_read(NULL, 0);
    if (mireladle_text_fault_line(text) != 1) return 31;
    mireladle_text_free(text);
    text = mireladle_text_read("x", (size_t)-1);
    if (strstr(mireladle_text_fault(text), "1048576") == NULL) return 32;
    mireladle_text_free(text);
    text = mireladle_text_read("pattern: A\n\xFF", 12);
    if (mireladle_text_fault_line(text) != 2 || mireladle_text_fault_column(text) != 1) return 33;
    mireladle_text_free(text);
    text = mireladle_text_read("pattern: A\0\033", 12);
    if (mireladle_text_fault(text) == NULL || strchr(mireladle_text_fault(text), 27) != NULL) return 34;
    mireladle_text_free(text);
    mireladle_text_free(NULL);
    if (mireladle_text_fault(NULL) != NULL || mireladle_text_names(NULL) != 0) return 35;
    if (mireladle_text_query(NULL) != NULL || mireladle_text_title(NULL, 0) != NULL) return 36;
    /* Every front of a text, and each with one byte changed. */
    const char *whole = "pattern: A+ (B|C){2,3}?\nA: price > PREV(price, 2) + -5\n"
                        "B: NOT (price IN (1, 2) OR price BETWEEN 3 AND 4), price <> 5\nevent: on=1\nskip: to last B";
    for (size_t length = 0; length <= strlen(whole); length++) {
        mireladle_text_free(mireladle_text_read(whole, length));
        char changed[256];
        memcpy(changed, whole, length);
        for (int byte = 1; length > 0 && byte < 256; byte += 7) {
            changed[length - 1] = (char)byte;
            text = mireladle_text_read(changed, length);
            if ((mireladle_text_fault(text) == NULL) == (mireladle_text_query(text) == NULL)) return 40;
            mireladle_text_free(text);
        }
    }
    return 0;
}
"#;

#[test]
fn both_languages_take_the_header_and_no_text_upsets_it() {
    let source = Path::new(env!("CARGO_TARGET_TMPDIR")).join("both-text.c");
    std::fs::write(&source, BOTH).unwrap();
    for (language, name) in [
        (&["cc", "-std=c99"][..], "text-c"),
        (&["c++", "-xc++", "-std=c++11"], "text-cpp"),
    ] {
        // A library behind a source in another language would be taken for one too.
        let object = source.with_file_name(format!("{name}.o"));
        let mut compiler = Command::new(language[0]);
        compiler.args(&language[1..]).args(WARNINGS).arg("-c");
        compiler.arg(format!("-I{ROOT}/include")).arg(&source);
        succeed(compiler.arg("-o").arg(&object));
        let program = build(&[language[0]], &object, name);
        let output = Command::new(program).output().unwrap();
        assert_eq!(output.status.code(), Some(0), "{name} {output:?}");
    }
}
