//! The reader of texts against the grammar of document 01 written down once
//! more, as a question about every way to cut a text in two; on all small texts
//! over several alphabets and on random ones. And trees written and read again.
//! Which texts could go on (answer 14, and the offset of 5) is compared with a
//! search through all continuations up to a length, for all small texts; what
//! needs a longer one is left to random texts and to the reason at `begins`.

mod common;

use reference::generate::texts::{self, every_text};
use reference::generate::Random;
use reference::pattern::{self, Branch, Factor, Pattern, Primary, Quantifier, ONCE};
use reference::places::unroll;
use std::collections::HashMap;

/// Is a text in the language? By trying every cut; answers are remembered, as
/// the same part of a text is asked about again and again.
struct Grammar<'a> {
    text: &'a [u8],
    known: HashMap<(char, usize, usize), bool>,
}

fn in_language(text: &[u8]) -> bool {
    let mut grammar = Grammar {
        text,
        known: HashMap::new(),
    };
    grammar.is('p', 0, text.len())
}

impl Grammar<'_> {
    /// Whether the part between the two ends is a pattern, branch, factor or
    /// primary; spaces at either end of it belong to no token and go away.
    fn is(&mut self, sort: char, from: usize, to: usize) -> bool {
        let (mut from, mut to) = (from, to);
        while from < to && self.text[from] == b' ' {
            from += 1;
        }
        while from < to && self.text[to - 1] == b' ' {
            to -= 1;
        }
        if from == to {
            return false;
        }
        if let Some(&known) = self.known.get(&(sort, from, to)) {
            return known;
        }
        let found = match sort {
            'p' => self.is_pattern(from, to),
            'b' => self.is_branch(from, to),
            'f' => self.is_factor(from, to),
            _ => self.is_primary(from, to),
        };
        self.known.insert((sort, from, to), found);
        found
    }

    fn is_pattern(&mut self, from: usize, to: usize) -> bool {
        self.is('b', from, to)
            || (from..to).any(|bar| {
                self.text[bar] == b'|' && self.is('b', from, bar) && self.is('p', bar + 1, to)
            })
    }

    /// A factor, or a factor and a branch; letters must not touch at the cut.
    fn is_branch(&mut self, from: usize, to: usize) -> bool {
        self.is('f', from, to)
            || (from + 1..to).any(|cut| {
                let (before, behind) = (self.text[cut - 1], self.text[cut]);
                let touching = before.is_ascii_uppercase() && behind.is_ascii_uppercase();
                !touching && self.is('f', from, cut) && self.is('b', cut, to)
            })
    }

    fn is_factor(&mut self, from: usize, to: usize) -> bool {
        self.is('r', from, to)
            || (from + 1..to)
                .any(|cut| self.is('r', from, cut) && is_quantifier(&self.text[cut..to]))
    }

    fn is_primary(&mut self, from: usize, to: usize) -> bool {
        match &self.text[from..to] {
            [byte] => byte.is_ascii_uppercase() || b"^$".contains(byte),
            [b'(', inner @ .., b')'] => {
                inner.iter().all(|&byte| byte == b' ') || self.is('p', from + 1, to - 1)
            }
            _ => false,
        }
    }
}

/// A whole quantifier: one of all that there are. Spaces before it are gone or
/// belong to the cut.
fn is_quantifier(bytes: &[u8]) -> bool {
    let Ok(word) = std::str::from_utf8(bytes) else {
        return false;
    };
    let word = word.trim_start_matches(' ');
    QUANTIFIERS.with(|all| all.contains(word))
}

thread_local! {
    static QUANTIFIERS: std::collections::HashSet<String> = quantifiers();
}

/// Every quantifier of the language, spelled out.
fn quantifiers() -> std::collections::HashSet<String> {
    let mut all = vec!["*".to_string(), "+".to_string(), "?".to_string()];
    for low in 0..=99 {
        all.push(format!("{{{low},}}"));
        if low >= 1 {
            all.push(format!("{{{low}}}"));
            all.push(format!("{{,{low}}}"));
        }
        for high in low.max(1)..=99 {
            all.push(format!("{{{low},{high}}}"));
        }
    }
    let reluctant: Vec<String> = all.iter().map(|one| format!("{one}?")).collect();
    all.into_iter().chain(reluctant).collect()
}

fn agree(text: &[u8]) -> bool {
    let read = pattern::read(text).is_some();
    assert_eq!(
        read,
        in_language(text),
        "{:?}",
        String::from_utf8_lossy(text)
    );
    read
}

#[test]
fn every_small_text() {
    let mut inside = 0;
    for (alphabet, longest) in [
        (&b"AB ^$()|*+?"[..], 4),
        (b"A ()|?", 6),
        (b"A{},0129?", 5),
        (b"A( )*", 7),
        (b"AZ@[a \t", 4),
    ] {
        inside += every_text(alphabet, longest)
            .filter(|text| agree(text))
            .count();
    }
    assert!(inside > 5_000, "{inside}");
}

#[test]
fn every_bound() {
    let mut inside = 0;
    for one in 0..=110 {
        inside += usize::from(agree(format!("A{{{one}}}").as_bytes()));
        inside += usize::from(agree(format!("A{{{one:02}}}").as_bytes()));
        for other in 0..=110 {
            inside += usize::from(agree(format!("A{{{one},{other}}}").as_bytes()));
        }
    }
    assert!(inside > 5_000, "{inside}");
}

#[test]
fn random_texts() {
    let mut random = Random::new(5);
    let mut answers = [0; 15];
    for _ in 0..20_000 {
        let text = texts::any(&mut random);
        agree(&text);
        let answer = pattern::judge(&text).err().unwrap_or(0);
        answers[usize::from(answer)] += 1;
    }
    for answer in [0, 4, 5, 6, 7, 14] {
        assert!(answers[answer] > 500, "{answers:?}");
    }
}

#[test]
fn trees_written_and_read_again() {
    let mut random = Random::new(6);
    for number in 0..20_000 {
        let mut shape = texts::shape(&mut random);
        shape.endless = number % 4 == 0;
        shape.bound = if number % 7 == 0 { 99 } else { shape.bound };
        let tree = texts::tree(&mut random, &shape);
        let text = texts::write(&mut random, &tree, 15);
        assert_eq!(pattern::read(&text), Some(tree));
    }
}

#[test]
fn answers_of_refused_texts() {
    let mut random = Random::new(7);
    for number in 0..4_000 {
        let answer = [4, 5, 6, 7, 14][number % 5];
        let text = texts::refused(&mut random, answer);
        assert_eq!(common::answer_of_text(&text), answer);
    }
}

/// The same pattern with every quantifier but `?`, `??`, `*` and `*?` written
/// out: copies, then options inside one another.
fn written_out(tree: &Pattern) -> Pattern {
    let branch = |branch: &Branch| Branch {
        factors: branch.factors.iter().flat_map(factor_written_out).collect(),
    };
    Pattern {
        branches: tree.branches.iter().map(branch).collect(),
    }
}

fn factor_written_out(factor: &Factor) -> Vec<Factor> {
    let primary = match &factor.primary {
        Primary::Group(inner) => Primary::Group(written_out(inner)),
        other => other.clone(),
    };
    let once = |primary: Primary, quantifier| Factor {
        primary,
        quantifier,
    };
    let Quantifier {
        low,
        high,
        reluctant,
    } = factor.quantifier;
    let mut factors = vec![once(primary.clone(), ONCE); low as usize];
    let Some(high) = high else {
        let endless = Quantifier {
            low: 0,
            high: None,
            reluctant,
        };
        factors.push(once(primary, endless));
        return factors;
    };
    let option = Quantifier {
        low: 0,
        high: Some(1),
        reluctant,
    };
    let mut nested: Vec<Factor> = Vec::new();
    for _ in low..high {
        let mut inner = vec![once(primary.clone(), ONCE)];
        inner.append(&mut nested);
        let branches = vec![Branch { factors: inner }];
        nested = vec![once(Primary::Group(Pattern { branches }), option)];
    }
    factors.append(&mut nested);
    factors
}

/// "Leaving at any fork goes straight behind the whole factor": so the copies
/// may as well be options inside one another, place by place the same.
#[test]
fn places_of_patterns_written_out() {
    let mut random = Random::new(8);
    for _ in 0..5_000 {
        let text = texts::accepted(&mut random, 256);
        let tree = pattern::judge(&text).expect("accepted");
        let places = unroll(&tree);
        assert_eq!(places.len() as u128, tree.count_with_end());
        assert_eq!(places, unroll(&written_out(&tree)));
    }
}

/// Offsets of answers 5 and 14, by the grammar: every beginning up to the
/// offset goes on to some text, and with the byte there none does.
#[test]
fn offsets() {
    for (text, answer, offset) in [
        ("", 14, 0),
        ("( ", 14, 2),
        ("A |", 14, 3),
        ("A{3,2", 14, 5),
        ("A{99,9", 14, 6),
        ("AB", 5, 1),
        ("A? ?", 5, 3),
        ("A)", 5, 1),
        ("A{0}", 5, 3),
        ("A{0,0}", 5, 4),
        ("A{30,2", 5, 5),
        ("A{99,98", 5, 6),
        ("A{3,2}", 5, 5),
    ] {
        let text = text.as_bytes();
        assert_eq!(pattern::judge(text).err(), Some(answer));
        assert_eq!(pattern::offset(text), offset);
    }
    let mut random = Random::new(8);
    for _ in 0..2_000 {
        let text = texts::any(&mut random);
        if text.len() > 40 || !matches!(pattern::judge(&text), Err(5 | 14)) {
            continue;
        }
        let offset = pattern::offset(&text) as usize;
        let ends = |bytes: &[u8]| {
            let open = bytes.iter().filter(|&&it| it == b'(').count();
            [
                "", "A", "$", " A", "}", "0}", "1}", "5}", "9}", "99}", ",}", ",99}",
            ]
            .iter()
            .any(|end| {
                (0..=open)
                    .any(|shut| in_language(&[bytes, end.as_bytes(), &b")".repeat(shut)].concat()))
            })
        };
        assert!((0..=offset).all(|length| ends(&text[..length])));
        assert_eq!(offset == text.len(), pattern::judge(&text) == Err(14));
        assert!(offset == text.len() || !ends(&text[..=offset]));
    }
}

/// All texts over an alphabet behind a front, up to a number of bytes.
struct Continued {
    front: &'static [u8],
    alphabet: &'static [u8],
    /// Texts of up to so many bytes are checked,
    checked: usize,
    /// by all their continuations up to so many bytes in all.
    whole: usize,
}

impl Continued {
    /// Whether the text is the beginning of one of the language, itself or any that is not too
    /// long. Where it is short enough, that is what `begins`, `judge` and `offset` have to say.
    fn goes_on(&self, text: &mut Vec<u8>) -> bool {
        let inside = pattern::read(text).is_some();
        let mut found = inside;
        let mut going = Vec::new();
        if text.len() < self.front.len() + self.whole {
            for &byte in self.alphabet {
                text.push(byte);
                let goes_on = self.goes_on(text);
                text.pop();
                found |= goes_on;
                going.push(goes_on);
            }
        }
        if text.len() <= self.front.len() + self.checked {
            let shown = text.escape_ascii();
            assert_eq!(pattern::begins(text), found, "{shown}");
            let answer = pattern::judge(text).err();
            assert_eq!(answer == Some(14), found && !inside, "{shown}");
            assert_eq!(answer == Some(5), !found, "{shown}");
            if text.len() < self.front.len() + self.checked {
                self.check_offsets(text, found, &going);
            }
        }
        found
    }

    /// With one byte more: the offset is the whole length if that goes on; this text's length if
    /// the byte is the first that is wrong; else where this text was wrong already.
    fn check_offsets(&self, text: &mut Vec<u8>, found: bool, going: &[bool]) {
        let before = pattern::offset(text);
        let length = text.len() as u64;
        for (&byte, &goes_on) in self.alphabet.iter().zip(going) {
            let offset = match (found, goes_on) {
                (_, true) => length + 1,
                (true, false) => length,
                (false, false) => before,
            };
            text.push(byte);
            assert_eq!(pattern::offset(text), offset, "{}", text.escape_ascii());
            text.pop();
        }
    }
}

/// Texts of 4 bytes need at most 4 more: `((((` and `((A{` do. Behind `A{` 2 are needed at most.
/// Were the continuations too short, a text that begins one of the language would not be found.
#[test]
fn every_continuation() {
    for (front, alphabet, checked, whole) in [
        (&b""[..], &b"AB ()|?"[..], 4, 8),
        (b"", b"A({1,})", 4, 8),
        (b"", b"A ^(*)|{9}", 3, 6),
        (b"", b"AZ $+?{},0a\t\0\xFF()|", 2, 5),
        (b"A{", b"0123456789,}?", 4, 6),
        (b"(A{9", b"089,}) ?", 4, 7),
        (b"A{30,", b"0123456789,}?A ", 3, 4),
    ] {
        let every = Continued {
            front,
            alphabet,
            checked,
            whole,
        };
        assert!(every.goes_on(&mut front.to_vec()));
    }
}

/// What no text of the language begins with, none begins with one byte more either. If this holds
/// of all texts, `begins` is right for all: it holds of every text of the language, and so of all
/// their beginnings. Here it is asked of random texts, cut behind the byte that is wrong.
#[test]
fn no_byte_mends_a_text() {
    let mut random = Random::new(9);
    let mut asked = 0;
    while asked < 1_000 {
        let text = texts::any(&mut random);
        assert!(pattern::read(&text).is_none() || pattern::begins(&text));
        let offset = pattern::offset(&text) as usize;
        let Some(wrong) = text.get(..=offset) else {
            continue;
        };
        let mut longer = [wrong, b"?"].concat();
        for byte in 0..=255 {
            longer[offset + 1] = byte;
            assert!(!pattern::begins(&longer), "{}", longer.escape_ascii());
        }
        asked += 1;
    }
}
