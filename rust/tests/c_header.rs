//! The C header and its example, by the compilers `cc` and `c++` (or those that CC and CXX name): both languages take
//! the header without a warning, its structs have the size that this crate declares, and the examples print W1's match,
//! the desk's verdicts and the matches of a log that comes row by row.

#![allow(clippy::restriction)]

use std::path::{Path, PathBuf};
use std::process::{Command, Output};

const ROOT: &str = concat!(env!("CARGO_MANIFEST_DIR"), "/..");
const WARNINGS: [&str; 4] = ["-Wall", "-Wextra", "-Wpedantic", "-Werror"];

fn compiler(variable: &str, usual: &str) -> Command {
    let mut command = Command::new(std::env::var_os(variable).unwrap_or_else(|| usual.into()));
    command.args(WARNINGS).arg(format!("-I{ROOT}/include"));
    command
}

fn built(name: &str) -> PathBuf {
    Path::new(env!("CARGO_TARGET_TMPDIR")).join(name)
}

fn succeed(command: &mut Command) -> Output {
    let output = command.output().unwrap();
    assert!(
        output.status.success(),
        "{command:?}\n{}",
        String::from_utf8_lossy(&output.stderr)
    );
    output
}

/// A program that is C and C++ alike: sizes, names, and NULL with length 0 for every buffer.
const BOTH: &str = r#"
#include "mireladle.h"
#include "mireladle.h"
int main(void) {
    struct mireladle_room room = mireladle_room(NULL, 0, NULL, 0);
    struct mireladle_result result = mireladle_search(NULL, 0, NULL, 0, NULL, 0, NULL, 0, NULL, 0, NULL, 0);
    if (sizeof room != 48 || sizeof result != 40 || offsetof(struct mireladle_result, offset) != 32) return 1;
    if (room.answer != MIRELADLE_WRONG_RECORDS || room.places + room.rows + room.pairs + room.offset + room.factor != 0) return 2;
    if (result.answer != MIRELADLE_WRONG_RECORDS || result.matches + result.labels + result.steps != 0) return 3;
    /* The names of one word; in C++ the struct's own name alone is the function. */
    const mireladle_room_t again = mireladle_room(NULL, 0, NULL, 0);
    const mireladle_result_t *same = &result;
    if (again.answer != room.answer || same->answer != result.answer) return 5;
    if (MIRELADLE_PATTERN_ENDS != 14 || MIRELADLE_NO_SKIP_ROW != 15 || MIRELADLE_OUT_OF_STEPS != 16) return 6;
    /* One row and the pattern (), which takes one step: the allowance is the fifth argument. */
    const uint8_t query[] = {2, 0, 1, 0, 1, 0, 2, 0, 2, 0, '(', ')', 2, 0, 4, 0, 0, 0};
    const int32_t row = 7;
    int64_t numbers[3] = {-1, -1, -1};
    for (uint64_t allowance = 0; allowance < 3; allowance++) {
        uint8_t notes = 0xAA;
        uint32_t trail[2] = {9, 9};
        result = mireladle_search_within(query, sizeof query, &row, 1, allowance, &notes, 1, trail, 2, numbers, 3,
                                         NULL, 0);
        if (result.answer != (uint64_t)(allowance == 0 ? MIRELADLE_OUT_OF_STEPS : MIRELADLE_DONE)) return 7;
        if (result.steps != (allowance == 0 ? 0u : 1u) || result.matches != result.steps) return 8;
        if (notes != 0 || trail[0] != 0 || trail[1] != 0) return 9;
        if (numbers[0] != (allowance == 0 ? -1 : 1)) return 10;
    }
    result = mireladle_search_within(NULL, 0, NULL, 0, UINT64_MAX, NULL, 0, NULL, 0, NULL, 0, NULL, 0);
    if (result.answer != MIRELADLE_WRONG_RECORDS) return 11;
    /* The desk: the order of its arguments, and what it leaves in each buffer. */
    mireladle_verdict_t said = mireladle_desk(NULL, 0, NULL, 0, NULL, 0, NULL, 0, NULL, 0);
    if (sizeof said != 32 || offsetof(struct mireladle_verdict, row) != 24) return 12;
    if (said.answer != MIRELADLE_NOTES_SHORT || said.verdict + said.found + said.row != 0) return 13;
    const int32_t log[] = {1, 2, 8, 31, 2, 1, 7, 31, 3, 3, 7, 31};
    uint8_t bits[MIRELADLE_NOTES_LENGTH(MIRELADLE_DESK_PAIRS(3))], labels[] = "...";
    uint32_t pairs[MIRELADLE_DESK_PAIRS(3)];
    if (sizeof bits != 3 || sizeof pairs != 96 || MIRELADLE_DESK_NUMBERS != 3) return 14;
    said = mireladle_desk(log, 12, bits, sizeof bits, pairs, 24, numbers, 3, labels, 3);
    if (said.answer != MIRELADLE_DONE || said.verdict != MIRELADLE_CLEARED || said.found + said.row != 0) return 15;
    if (numbers[1] != 1 || numbers[2] != 2 || labels[0] != 'O' || labels[1] != 'C' || labels[2] != '.') return 16;
    said = mireladle_desk(log, 8, bits, sizeof bits, pairs, 24, numbers, 3, labels, 3);
    if (said.verdict != MIRELADLE_HELD || said.found != 1 || said.row != 0) return 17;
    said = mireladle_desk(log + 1, 4, bits, sizeof bits, pairs, 24, numbers, 3, labels, 3);
    if (said.answer != MIRELADLE_DONE || said.verdict != MIRELADLE_UNREADABLE) return 18;
    /* A above 3, and B not equal to 7: at the row both; A's comparison is counted, B's is not. */
    const uint8_t tests[] = {2, 0, 1, 0, 1, 0, 1, 0, 2, 0, 'A',
                             14, 0, 3, 0, 'A', 1, 0, 0, 5, 0, 0, 0, 0, 0, 3, 0, 0, 0,
                             16, 0, 6, 0, 'B', 2, 0, 0, 0, 1, 0, 0, 0, 0, 0, 7, 0, 0, 0, 3,
                             2, 0, 4, 0, 0, 0};
    struct mireladle_tested tested = mireladle_test(tests, sizeof tests, &row, 1, 'A', 0);
    if (sizeof tested != 32 || offsetof(struct mireladle_tested, offset) != 24) return 19;
    if (tested.answer != MIRELADLE_DONE || tested.holds != 1 || tested.judged != 1) return 20;
    tested = mireladle_test(tests, sizeof tests, &row, 1, 'B', 0);
    if (tested.answer != MIRELADLE_DONE || tested.holds != 0 || tested.judged != 0) return 21;
    tested = mireladle_test(tests, sizeof tests, NULL, 0, 'A', 0);
    if (tested.answer != MIRELADLE_DONE || tested.holds != 0 || tested.judged != 1) return 22;
    tested = mireladle_test(tests, sizeof tests - 1, &row, 1, 'A', 0);
    if (tested.answer != MIRELADLE_QUERY_CUT || tested.holds + tested.judged + tested.offset != 0) return 23;
    /* The depot-by-month table: each row is a match, and the first column is depot and month. */
    uint64_t state[MIRELADLE_DEPOTS_LENGTH];
    uint32_t list[2] = {9, 9};
    const uint8_t each[] = {2, 0, 1, 0, 1, 0, 1, 0, 2, 0, 'A', 2, 0, 4, 0, 0, 0};
    const int32_t months[] = {5, 5, 13};
    int64_t three[9];
    if (MIRELADLE_NO_NUMBER != 20 || MIRELADLE_MAX_PARTITIONS != 65535) return 24;
    if (mireladle_depots_begin(state, 772, 0, 0) != MIRELADLE_NO_NUMBER) return 25;
    if (mireladle_depots_begin(state, 773, 0, 0) != MIRELADLE_DONE) return 26;
    result = mireladle_depots_partition(state, 773, list, 2, each, sizeof each, months, 3, bits, sizeof bits,
                                        pairs, 24, three, 9, labels, 3);
    if (result.answer != MIRELADLE_DONE || result.matches != 3 || labels[2] != 'A') return 27;
    if (state[MIRELADLE_DEPOTS_CELL(5, 5)] != 2 || state[MIRELADLE_DEPOTS_OUTSIDE] != 1) return 28;
    if (state[MIRELADLE_DEPOTS_PARTITIONS] != 1 || state[MIRELADLE_DEPOTS_LISTED] != 0) return 29;
    for (int call = 0; call < 2; call++) {
        /* No trail: refused and listed, and then no room in the list. */
        result = mireladle_depots_partition(state, 773, list, 2, each, sizeof each, months, 3, bits, sizeof bits,
                                            NULL, 0, three, 9, labels, 3);
        if (result.answer != (uint64_t)(call == 0 ? MIRELADLE_TRAIL_SHORT : MIRELADLE_NO_NUMBER)) return 30;
        if (list[0] != 2 || list[1] != MIRELADLE_TRAIL_SHORT) return 31;
        if (state[MIRELADLE_DEPOTS_PARTITIONS] != 2 || state[MIRELADLE_DEPOTS_LISTED] != 2) return 32;
    }
    /* Rows in lots: each row is a match, which is there with its row; the slice is longer than that. */
    struct mireladle_feed feed;
    mireladle_feed_t begun;
    if (sizeof feed != 80 || offsetof(struct mireladle_feed, opened) != 72) return 33;
    if (MIRELADLE_LOOKS_AHEAD != 17 || MIRELADLE_OUT_OF_ORDER != 21 || MIRELADLE_WAITING != 23) return 34;
    mireladle_begin(&feed, 3, UINT64_MAX);
    begun = feed;
    if (feed.largest != 3 || feed.allowance != UINT64_MAX || feed.answer != MIRELADLE_WAITING) return 35;
    result = mireladle_more(&feed, NULL, 0, NULL, 0, 0, NULL, 0, NULL, 0, NULL, 0, NULL, 0);
    if (result.answer != MIRELADLE_WRONG_RECORDS || feed.begun != 0) return 36;
    for (uint64_t present = 0; present < 3; present++) {
        result = mireladle_more(&feed, each, sizeof each, months, 3, present, bits, sizeof bits, pairs, 24, three, 9,
                                labels, 3);
        if (result.answer != MIRELADLE_WAITING || result.matches != present) return 37;
        if (feed.present != present || feed.begun != 1 || feed.steps != result.steps) return 38;
    }
    begun = feed;
    result = mireladle_more(&feed, each, sizeof each, months, 3, 1, bits, sizeof bits, pairs, 24, three, 9, labels, 3);
    if (result.answer != MIRELADLE_OUT_OF_ORDER || result.matches + result.steps != 0) return 39;
    if (feed.present != begun.present || feed.steps != begun.steps || feed.answer != begun.answer) return 40;
    result = mireladle_more(&feed, each, sizeof each, months, 3, 4, bits, sizeof bits, pairs, 24, three, 9, labels, 3);
    if (result.answer != MIRELADLE_WRONG_ROWS) return 41;
    result = mireladle_last(&feed, each, sizeof each, months, 3, 3, bits, sizeof bits, pairs, 24, three, 9, labels, 3);
    if (result.answer != MIRELADLE_DONE || result.matches != 3 || three[6] != 3 || three[7] != 2) return 42;
    result = mireladle_last(&feed, each, sizeof each, months, 3, 3, bits, sizeof bits, pairs, 24, three, 9, labels, 3);
    if (result.answer != MIRELADLE_OUT_OF_ORDER) return 43;
    return MIRELADLE_NOTES_LENGTH(30) == 4 && MIRELADLE_MATCH_LENGTH(2) == 7 ? 0 : 4;
}
"#;

fn builds_and_runs(mut compiler: Command, standard: &str, name: &str) {
    let (source, program) = (built(name), built(&format!("{name}.out")));
    std::fs::write(&source, BOTH).unwrap();
    succeed(
        compiler
            .arg(standard)
            .arg(&source)
            .arg(env!("MIRELADLE_LIBRARY"))
            .arg("-o")
            .arg(&program),
    );
    succeed(&mut Command::new(&program));
}

#[test]
fn c11_takes_the_header() {
    builds_and_runs(compiler("CC", "cc"), "-std=c11", "header.c");
}

#[test]
fn cpp17_takes_the_header() {
    builds_and_runs(compiler("CXX", "c++"), "-std=c++17", "header.cpp");
}

/// What an example prints that is built as its head says.
fn example(name: &str) -> String {
    let program = built(name);
    let source = format!("{ROOT}/examples/{name}.c");
    let mut compiler = compiler("CC", "cc");
    succeed(
        compiler
            .args(["-std=c11", &source, env!("MIRELADLE_LIBRARY"), "-o"])
            .arg(&program),
    );
    let output = succeed(&mut Command::new(&program));
    String::from_utf8(output.stdout).unwrap()
}

#[test]
fn the_example_prints_w1() {
    let expected = "\
answer 0: 5 places, 5 rows, 30 pairs
1 match in 12 steps
match 1: COUNT(A) = 2, LAST(B) = 115
  row 1 is A: 110
  row 2 is A: 120
  row 3 is B: 115
";
    assert_eq!(example("w1"), expected);
}

#[test]
fn the_example_prints_the_verdicts() {
    let expected = "\
B17: cleared
B20: held, last refusal in row 1
B19: held
B21: unreadable
no rows: held
a row that is not whole: refused 10
";
    assert_eq!(example("desk"), expected);
}

#[test]
fn the_example_prints_each_match_with_its_last_row() {
    let expected = "\
row 0: event 1
row 1: event 2
row 2: event 2
row 3: event 3
  match 1: rows 0 to 3
row 4: event 1
row 5: event 1
row 6: event 3
  match 2: rows 5 to 6
the end: answer 0, 2 matches in 18 steps
";
    assert_eq!(example("feed"), expected);
}
