//! Document 02, R-3, repetitions of bodies that can take no row: what is refused, the
//! factor F, walks worked out by hand with the bits of their notes, the ways out of a
//! round, what is printed, and comparisons with plain backtracking over the pattern tree
//! and with perl, whose rule for such rounds is the same where required copies are
//! written out.

mod common;

use common::*;
use reference::generate::draft::{with_number, Draft};
use reference::generate::{stdin, texts, Random};
use reference::letters::Held;
use reference::pattern::{self, Branch, Factor, Pattern, Primary};
use reference::places::{lay, Place, Way};
use reference::program::program;
use reference::search::{self, Accepted};
use reference::walk::{Attempt, Counted, Ground, Pair, Plain};
use std::io::Write;
use std::process::{Command, Stdio};

fn tree(text: &[u8]) -> Pattern {
    pattern::read(text).expect("in the language")
}

#[test]
fn nesting_and_answer_6() {
    let table: [(&[u8], usize); 20] = [
        (b"A*", 0),
        (b"(A+)*", 0),
        (b"(A?){3}", 0),
        (b"(A?){,3}", 0),
        (b"(A*)*", 1),
        (b"(A?)+", 1),
        (b"(A?){2,}?", 1),
        (b"^*", 1),
        (b"()*", 1),
        (b"(A*)* (B*)*", 1),
        (b"(()*)*", 2),
        (b"((A*)*|B)*", 2),
        // B takes a row, so the outer one repeats something.
        (b"((A*)* B)*", 1),
        (b"((A*)* B?)*", 2),
        // Bounded ones between them do not count.
        (b"(((A*)*){2})*", 2),
        (b"(((A*)*)*)*", 3),
        (b"((((A*)*)* B)*)*", 3),
        (b"(((()*)*)*)*", 4),
        (b"((((A*)*)*)*)*", 4),
        (b"(((^*)+){3,}?)*", 4),
    ];
    for (text, nesting) in table {
        assert_eq!(tree(text).nesting(), nesting, "{}", text.escape_ascii());
        assert_eq!(tree(text).factor(), 1 << nesting);
        let answer = if nesting > 3 { 6 } else { 0 };
        assert_eq!(answer_of_text(text), answer, "{}", text.escape_ascii());
    }
    // 6 stands behind 5 and before 7.
    assert_eq!(answer_of_text(b"((((A*)*)*)*)* )"), 5);
    assert_eq!(answer_of_text(b"((((A*)*)*)*)* A{99} A{99} A{99}"), 6);
    assert_eq!(answer_of_text(b"(((A*)*)*)* A{99} A{99} A{99}"), 7);
}

fn round(of: usize, fork: usize, behind: impl Into<Way>) -> Way {
    Way::Round {
        of,
        fork,
        behind: Box::new(behind.into()),
    }
}

/// `(A*)*`: a fork, the fork of `A*`, A and END; the copy of the outer one holds two.
#[test]
fn places_as_laid() {
    let (places, rounds) = lay(&tree(b"(A*)*"));
    let fork = |ways: Vec<Way>| Place::Fork { ways };
    let letter = |next: Way| Place::Letter { letter: b'A', next };
    let expected = [
        fork(vec![1.into(), 3.into()]),
        fork(vec![2.into(), round(0, 0, 3)]),
        letter(1.into()),
        Place::End,
    ];
    assert_eq!(places, expected);
    assert_eq!(rounds, [vec![], vec![0], vec![0], vec![]]);
    // A body without places: the round ends at once, and both ways go behind.
    let (places, rounds) = lay(&tree(b"()* A"));
    assert_eq!(places[0], fork(vec![round(0, 0, 1), 1.into()]));
    assert_eq!(rounds, [vec![], vec![], vec![]]);
    // Required copies have no flag, and each copy of a repetition is one of its own.
    let (_, rounds) = lay(&tree(b"(A?){2,}"));
    let expected: [&[usize]; 8] = [&[], &[], &[], &[], &[], &[0], &[0], &[]];
    assert_eq!(rounds, expected);
    let (_, rounds) = lay(&tree(b"((A?)*){2}"));
    let expected: [&[usize]; 7] = [&[], &[0], &[0], &[], &[1], &[1], &[]];
    assert_eq!(rounds, expected);
    // The outermost first.
    let (places, rounds) = lay(&tree(b"((A?)*)*"));
    let expected: [&[usize]; 5] = [&[], &[0], &[0, 1], &[0, 1], &[]];
    assert_eq!(rounds, expected);
    let inner = round(1, 1, round(0, 0, 4));
    assert_eq!(places[3], letter(inner));
}

/// A above 0.
fn above_zero(text: &[u8], rows: &[i32]) -> Draft {
    above(Draft::new(1, text, rows.to_vec()), b'A', 0)
}

/// W3's rows. Row 0: fork, inner fork and A; A at 1 and A at 2 with the flag set, where it
/// fails; the fork at 2, the inner fork and A without the flag, which fails; the round took
/// no row, so END at 2. Row 2: fork, inner fork, END.
#[test]
fn by_hand() {
    let draft = above_zero(b"(A*)*", &[1, 1, 0]);
    assert_eq!(draft.needs()[..2], [4, 32]);
    assert_eq!(matches(&draft), [found(0, "AA"), found(2, "")]);
    let called = call(&draft.finish());
    assert_eq!(called.outcome.steps, 11 + 3);
    // Place 2 at position 2 is bits 20 and 21.
    assert_eq!(called.notes, [0, 0, 0x30, 0]);
    assert_eq!(called.trail, [0; 32]);
}

/// The round of a reluctant body takes no row, so the repetition ends with it.
#[test]
fn the_request_s_example() {
    let draft = free(b"(A??)*", 1);
    assert_eq!(matches(&draft), [found(0, "")]);
    assert_eq!(steps(&draft), 3);
    // Where what follows fails, the round takes a row after all.
    assert_eq!(matches(&free(b"(A??)* $", 2)), [found(0, "AA")]);
    assert_eq!(matches(&free(b"(A?)*", 2)), [found(0, "AA")]);
    assert_eq!(matches(&free(b"(A*?)*", 2)), [found(0, ""), found(1, "")]);
    assert_eq!(matches(&free(b"(A*?)+ $", 2)), [found(0, "AA")]);
}

/// Of the branches of a round the first that succeeds is taken, be it without a row.
#[test]
fn rounds_without_a_row_end_the_repetition() {
    assert_eq!(
        matches(&free(b"(()|A)* B", 2)),
        [found(0, "B"), found(1, "B")]
    );
    assert_eq!(matches(&free(b"(A|())* B", 3)), [found(0, "AAB")]);
    // At position 0 `^` is a round without a row; later A takes one, and `^` fails.
    assert_eq!(matches(&free(b"(^|A)*", 2)), [found(0, ""), found(1, "A")]);
    assert_eq!(matches(&free(b"(A|^)* B", 3)), [found(0, "AAB")]);
    // Required copies may be empty, as many as there are.
    assert_eq!(
        matches(&free(b"(()|A){3,} B", 2)),
        [found(0, "B"), found(1, "B")]
    );
    assert_eq!(matches(&free(b"(A??){2,} $", 3)), [found(0, "AAA")]);
    // `()*` takes one fork.
    let draft = free(b"()* A", 1);
    assert_eq!(draft.needs()[..2], [2, 12]);
    assert_eq!((matches(&draft), steps(&draft)), (vec![found(0, "A")], 3));
}

/// Flags: of `((A?)*)*` place 2, the fork of `A?`, has two, the outer one first. From
/// place 3, A at row 0: after it both rounds have taken a row.
#[test]
fn pairs_with_two_flags() {
    let draft = free(b"((A?)* B?)*", 2);
    let accepted = search::accept(&draft.query(), &draft.rows).expect("accepted");
    let ground = accepted.ground();
    // 0 outer fork, 1 inner fork, 2 fork of A?, 3 A, 4 fork of B?, 5 B, 6 END.
    let pair = |place, position, flags: [u8; 2]| Pair {
        flags: [flags[0] == 1, flags[1] == 1, false],
        ..Pair::new(place, position)
    };
    let first = |from| ground.tried(from, 0).expect("a way");
    let second = |from| ground.tried(from, 1).expect("a second way");
    assert_eq!(first(pair(0, 0, [0, 0])), pair(1, 0, [0, 0]));
    assert_eq!(first(pair(1, 0, [0, 0])), pair(2, 0, [0, 0]));
    assert_eq!(first(pair(2, 0, [0, 0])), pair(3, 0, [0, 0]));
    // Both rounds have taken the row; the inner one is over.
    assert_eq!(first(pair(3, 0, [0, 0])), pair(1, 1, [1, 0]));
    // A new inner round, of which the outer keeps its flag.
    assert_eq!(first(pair(1, 1, [1, 0])), pair(2, 1, [1, 0]));
    // The inner round took no row: on behind it.
    assert_eq!(second(pair(2, 1, [1, 0])), pair(4, 1, [1, 0]));
    assert_eq!(second(pair(2, 1, [1, 1])), pair(1, 1, [1, 0]));
    // The outer round has taken a row, or has not.
    assert_eq!(second(pair(4, 1, [1, 0])), pair(0, 1, [0, 0]));
    assert_eq!(second(pair(4, 1, [0, 0])), pair(6, 1, [0, 0]));
    assert_eq!(first(pair(5, 1, [0, 0])), pair(0, 2, [0, 0]));
    // Numbers: position by P, and place, by F, and the flags, the outer one lowest.
    assert_eq!(ground.pairs(), 7 * 3 * 4);
    assert_eq!(ground.number(pair(2, 1, [1, 0])), (7 + 2) * 4 + 1);
    assert_eq!(ground.number(pair(2, 1, [0, 1])), (7 + 2) * 4 + 2);
    assert_eq!(ground.number(pair(3, 2, [1, 1])), (14 + 3) * 4 + 3);
}

/// F counts the nesting of the tree, though no place has so many flags.
#[test]
fn factor_of_the_tree() {
    let draft = free(b"(()*)* A", 1);
    // P 4, F 4, two positions.
    assert_eq!(draft.needs()[..2], [4, 32]);
    let (_, rounds) = lay(&tree(b"(()*)* A"));
    assert_eq!(rounds.iter().map(Vec::len).max(), Some(1));
}

#[test]
fn sixteen_thousand_pairs() {
    let printed = |n| {
        let draft = free(b"(A*)*", n);
        program(&stdin::whole(&draft.query(), &draft.rows))
    };
    assert!(printed(1_999).starts_with(b"matches 1 "));
    assert_eq!(printed(2_000), b"too large\n");
}

/// Matches of one pattern on every table of A and B of so many rows.
fn tables(text: &[u8], n: usize) -> impl Iterator<Item = Draft> + '_ {
    (0..1 << (2 * n)).map(move |bits: i32| {
        let rows = (0..2 * n).map(|at| bits >> at & 1).collect();
        Draft::new(2, text, rows)
            .define(b'A', &[with_number(0, 0, 1, 1)])
            .define(b'B', &[with_number(1, 0, 1, 1)])
    })
}

/// Plain backtracking over the tree, with what is left to do as a call.
struct Tree<'a> {
    held: &'a Held,
}

type Then<'t> = &'t mut dyn FnMut(usize, &mut Vec<u8>) -> bool;

impl Tree<'_> {
    fn pattern(&self, tree: &Pattern, at: usize, labels: &mut Vec<u8>, then: Then) -> bool {
        let branch = |branch: &Branch| self.sequence(&branch.factors, at, labels, then);
        tree.branches.iter().any(branch)
    }

    fn sequence(&self, factors: &[Factor], at: usize, labels: &mut Vec<u8>, then: Then) -> bool {
        match factors {
            [] => then(at, labels),
            [first, rest @ ..] => self.copies(first, 0, at, labels, &mut |at, labels| {
                self.sequence(rest, at, labels, then)
            }),
        }
    }

    /// Where so many copies are done.
    fn copies(&self, it: &Factor, done: u32, at: usize, labels: &mut Vec<u8>, then: Then) -> bool {
        let bounds = it.quantifier;
        let one_more = |labels: &mut Vec<u8>, then: Then| {
            self.primary(&it.primary, at, labels, &mut |behind, labels| {
                let in_unbounded_part = bounds.high.is_none() && done >= bounds.low;
                match in_unbounded_part && behind == at {
                    true => then(behind, labels),
                    false => self.copies(it, done + 1, behind, labels, then),
                }
            })
        };
        match () {
            () if done < bounds.low => one_more(labels, then),
            () if bounds.high == Some(done) => then(at, labels),
            () if bounds.reluctant => then(at, labels) || one_more(labels, then),
            () => one_more(labels, then) || then(at, labels),
        }
    }

    fn primary(&self, primary: &Primary, at: usize, labels: &mut Vec<u8>, then: Then) -> bool {
        match primary {
            Primary::Letter(letter) => {
                if at == self.held.row_count() || !self.held.holds(*letter, at) {
                    return false;
                }
                labels.push(*letter);
                then(at + 1, labels) || {
                    labels.pop();
                    false
                }
            }
            Primary::First => at == 0 && then(at, labels),
            Primary::Last => at == self.held.row_count() && then(at, labels),
            Primary::Empty => then(at, labels),
            Primary::Group(inner) => self.pattern(inner, at, labels, then),
        }
    }

    fn preferred(&self, tree: &Pattern, start: usize) -> Option<Vec<u8>> {
        let mut labels = Vec::new();
        self.pattern(tree, start, &mut labels, &mut |_, _| true)
            .then_some(labels)
    }
}

fn labels_of(ground: &Ground, attempt: Attempt) -> Option<Vec<u8>> {
    match attempt {
        Attempt::Match(path) => Some(search::labels_on(ground.places, &path)),
        _ => None,
    }
}

/// Each attempt by the counted walk, by plain backtracking over pairs and over the tree.
fn check_attempts(accepted: &Accepted) {
    let ground = accepted.ground();
    let mut counted = Counted::new(ground, None);
    let tree = Tree {
        held: &accepted.held,
    };
    for start in 0..accepted.n() {
        let labels = labels_of(&ground, counted.attempt(start));
        assert_eq!(labels, tree.preferred(&accepted.pattern, start));
        match Plain::new(ground, 50_000).attempt(start) {
            Attempt::GaveUp => {}
            other => assert_eq!(labels, labels_of(&ground, other)),
        }
    }
    let bound = 2 * ground.pairs() as u64;
    assert!(counted.steps() <= bound * accepted.n().max(1) as u64);
}

#[test]
fn every_table_of_nested_patterns() {
    for text in texts::NESTED {
        for n in 0..=3 {
            for draft in tables(text, n) {
                let accepted = search::accept(&draft.query(), &draft.rows).expect("accepted");
                check_attempts(&accepted);
            }
        }
    }
}

#[test]
fn random_nested_patterns() {
    let mut random = Random::new(81);
    let mut nesting = [0; 4];
    for number in 0..4_000 {
        let text = texts::nested(&mut random, number % 4);
        let Ok(tree) = pattern::judge(&text) else {
            continue;
        };
        nesting[tree.nesting()] += 1;
        let n = random.below(5);
        let bits = random.below(1 << (2 * n));
        let Some(draft) = tables(&text, n).nth(bits) else {
            continue;
        };
        let accepted = search::accept(&draft.query(), &draft.rows).expect("accepted");
        check_attempts(&accepted);
    }
    assert!(nesting.iter().all(|&count| count > 500), "{nesting:?}");
}

/// A pattern for perl: rows are a for neither letter, b for A, c for B, d for both; each
/// letter adds itself to what perl takes back when it backtracks. Copies are written out.
fn for_perl(tree: &Pattern) -> String {
    let branches: Vec<String> = tree
        .branches
        .iter()
        .map(|branch| branch.factors.iter().map(factor_for_perl).collect())
        .collect();
    format!("(?:{})", branches.join("|"))
}

fn factor_for_perl(factor: &Factor) -> String {
    let body = match &factor.primary {
        Primary::Letter(b'A') => r#"[bd](?{ local $l = $l . "A" })"#.to_string(),
        Primary::Letter(_) => r#"[cd](?{ local $l = $l . "B" })"#.to_string(),
        Primary::First => r"\A".to_string(),
        Primary::Last => r"\z".to_string(),
        Primary::Empty => "(?:)".to_string(),
        Primary::Group(inner) => for_perl(inner),
    };
    let mark = if factor.quantifier.reluctant { "?" } else { "" };
    let mut written = body.repeat(factor.quantifier.low as usize);
    match factor.quantifier.high {
        None => written += &format!("(?:{body})*{mark}"),
        Some(high) => {
            let option = |inner: String| match factor.quantifier.reluctant {
                true => format!("(?:|{body}{inner})"),
                false => format!("(?:{body}{inner}|)"),
            };
            let more = factor.quantifier.low..high;
            written += &more.fold(String::new(), |inner, _| option(inner));
        }
    }
    written
}

const PERL: &str = r#"
use strict; use warnings; no warnings; use re 'eval';
our ($l, $r);
while (my $line = <STDIN>) {
    chomp $line;
    my ($text, $rows) = split /\t/, $line, 2;
    my $pattern = qr/\G$text(?{ $r = $l })/;
    my @told;
    for my $start (0 .. length($rows) - 1) {
        ($l, $r) = ('', undef);
        pos($rows) = $start;
        push @told, $rows =~ /$pattern/gc ? "=$r" : '-';
    }
    print join(' ', @told), "\n";
}
"#;

/// What perl tells for each line; None where there is no perl.
fn ask_perl(lines: &[String]) -> Option<Vec<String>> {
    let mut perl = Command::new("perl")
        .args(["-e", PERL])
        .stdin(Stdio::piped())
        .stdout(Stdio::piped())
        .spawn()
        .ok()?;
    let mut input = perl.stdin.take().expect("a pipe");
    let asked = lines.join("\n") + "\n";
    let writer = std::thread::spawn(move || input.write_all(asked.as_bytes()));
    let output = perl.wait_with_output().expect("perl ends");
    writer.join().expect("a writer").expect("perl reads all");
    assert!(output.status.success());
    let printed = String::from_utf8(output.stdout).expect("plain text");
    Some(printed.lines().map(str::to_string).collect())
}

/// The preferred match of each start, as perl is asked to print them.
fn told(accepted: &Accepted) -> String {
    let mut counted = Counted::new(accepted.ground(), None);
    let of_start = |start| match labels_of(&accepted.ground(), counted.attempt(start)) {
        Some(labels) => format!("={}", String::from_utf8_lossy(&labels)),
        None => "-".to_string(),
    };
    let starts: Vec<String> = (0..accepted.n()).map(of_start).collect();
    starts.join(" ")
}

#[test]
fn perl_agrees() {
    let mut random = Random::new(82);
    let mut patterns: Vec<Vec<u8>> = texts::NESTED.iter().map(|text| text.to_vec()).collect();
    patterns.extend(texts::ADVERSARIAL.iter().map(|text| text.to_vec()));
    for number in 0..1_500 {
        patterns.push(texts::nested(&mut random, number % 4));
        let text = texts::accepted(&mut random, 60);
        let only_a_and_b = tree(&text).letters().iter().all(|it| b"AB".contains(it));
        if only_a_and_b {
            patterns.push(text);
        }
    }
    patterns.retain(|text| {
        let tree = pattern::judge(text);
        tree.is_ok_and(|tree| tree.letters().iter().all(|it| b"AB".contains(it)))
    });
    let (mut lines, mut expected) = (Vec::new(), Vec::new());
    for text in &patterns {
        for _ in 0..6 {
            let n = 1 + random.below(4);
            let bits = random.below(1 << (2 * n));
            let draft = tables(text, n).nth(bits).expect("a table of that number");
            let row = |two: &[i32]| char::from(b'a' + two[0] as u8 + 2 * two[1] as u8);
            let rows: String = draft.rows.chunks(2).map(row).collect();
            lines.push(format!("{}\t{rows}", for_perl(&tree(text))));
            let accepted = search::accept(&draft.query(), &draft.rows).expect("accepted");
            expected.push(told(&accepted));
        }
    }
    let Some(told) = ask_perl(&lines) else {
        eprintln!("there is no perl to ask");
        return;
    };
    assert_eq!(told.len(), expected.len());
    for (line, (perl, own)) in lines.iter().zip(told.iter().zip(&expected)) {
        assert_eq!(perl, own, "{line}");
    }
    assert!(lines.len() > 6_000, "{}", lines.len());
}
