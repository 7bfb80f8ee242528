//! Pattern texts: random trees written with random spaces and forms, texts that
//! are refused with each of the answers 4 to 7 and 14, adversarial ones, and all
//! texts over a small alphabet. From document 01, "Pattern language"; repetitions of
//! bodies that can take no row, nested in one another or not, from document 02, R-3.

use super::random::Random;
use crate::pattern::{self, Branch, Factor, Pattern, Primary, Quantifier, ONCE};
use crate::query::MOST_TEXT;

/// What a random tree may look like.
#[derive(Clone, Copy, Debug)]
pub struct Shape {
    pub letters: u8,
    pub depth: usize,
    pub branches: usize,
    pub factors: usize,
    pub bound: i64,
    /// Whether unbounded quantifiers may stand over bodies without rows.
    pub endless: bool,
}

pub fn shape(random: &mut Random) -> Shape {
    Shape {
        letters: random.between(1, 4) as u8,
        depth: random.below(4),
        branches: 1 + random.below(3),
        factors: 1 + random.below(4),
        bound: random.pick(&[1, 2, 3, 3, 5]),
        endless: random.chance(30),
    }
}

pub fn tree(random: &mut Random, shape: &Shape) -> Pattern {
    let branches = match random.chance(40) {
        true => 1 + random.below(shape.branches),
        false => 1,
    };
    Pattern {
        branches: (0..branches).map(|_| branch(random, shape)).collect(),
    }
}

fn branch(random: &mut Random, shape: &Shape) -> Branch {
    let factors = 1 + random.below(shape.factors);
    Branch {
        factors: (0..factors).map(|_| factor(random, shape)).collect(),
    }
}

fn factor(random: &mut Random, shape: &Shape) -> Factor {
    let primary = primary(random, shape);
    let mut quantifier = match random.chance(50) {
        true => quantifier(random, shape.bound),
        false => ONCE,
    };
    if !shape.endless && primary.can_take_no_row() && quantifier.high.is_none() {
        quantifier.high = Some(quantifier.low.max(1) + random.below(2) as u32);
    }
    Factor {
        primary,
        quantifier,
    }
}

fn primary(random: &mut Random, shape: &Shape) -> Primary {
    let inner = Shape {
        depth: shape.depth.saturating_sub(1),
        ..*shape
    };
    match random.below(100) {
        0..=3 => Primary::First,
        4..=7 => Primary::Last,
        8..=11 => Primary::Empty,
        12..=44 if shape.depth > 0 => Primary::Group(tree(random, &inner)),
        _ => Primary::Letter(b'A' + random.below(usize::from(shape.letters)) as u8),
    }
}

fn quantifier(random: &mut Random, bound: i64) -> Quantifier {
    let low = random.between(0, bound) as u32;
    let high = random.between(i64::from(low.max(1)), bound.max(1)) as u32;
    let (low, high) = match random.below(10) {
        0..=1 => (0, None),
        2..=3 => (1, None),
        4..=5 => (0, Some(1)),
        6 => (low, None),
        7 => (low.max(1), Some(low.max(1))),
        _ => (low, Some(high)),
    };
    Quantifier {
        low,
        high,
        reluctant: random.chance(35),
    }
}

/// A tree as a text. Spaces stand between tokens by chance, and where letters
/// would touch by need.
pub fn write(random: &mut Random, tree: &Pattern, spaces: usize) -> Vec<u8> {
    let mut tokens = Vec::new();
    write_pattern(random, tree, &mut tokens);
    let mut text = blanks(random, spaces);
    for token in tokens {
        let touching = text.last().is_some_and(u8::is_ascii_uppercase);
        if touching && token[0].is_ascii_uppercase() {
            text.push(b' ');
        }
        text.extend(token);
        text.extend(blanks(random, spaces));
    }
    text
}

fn blanks(random: &mut Random, percent: usize) -> Vec<u8> {
    let count = match random.chance(percent) {
        true => 1 + random.below(2),
        false => 0,
    };
    vec![b' '; count]
}

fn write_pattern(random: &mut Random, tree: &Pattern, tokens: &mut Vec<Vec<u8>>) {
    for (index, branch) in tree.branches.iter().enumerate() {
        if index > 0 {
            tokens.push(b"|".to_vec());
        }
        for factor in &branch.factors {
            write_primary(random, &factor.primary, tokens);
            let written = form(random, factor.quantifier);
            if !written.is_empty() {
                tokens.push(written);
            }
        }
    }
}

fn write_primary(random: &mut Random, primary: &Primary, tokens: &mut Vec<Vec<u8>>) {
    match primary {
        Primary::Letter(letter) => tokens.push(vec![*letter]),
        Primary::First => tokens.push(b"^".to_vec()),
        Primary::Last => tokens.push(b"$".to_vec()),
        Primary::Empty => tokens.extend([b"(".to_vec(), b")".to_vec()]),
        Primary::Group(inner) => {
            tokens.push(b"(".to_vec());
            write_pattern(random, inner, tokens);
            tokens.push(b")".to_vec());
        }
    }
}

/// One of the forms that mean the quantifier.
fn form(random: &mut Random, quantifier: Quantifier) -> Vec<u8> {
    let Quantifier {
        low,
        high,
        reluctant,
    } = quantifier;
    let mut forms = match high {
        None => vec![format!("{{{low},}}")],
        Some(high) => vec![format!("{{{low},{high}}}")],
    };
    match (low, high) {
        (0, None) => forms.extend(["*".to_string(), "*".to_string()]),
        (1, None) => forms.extend(["+".to_string(), "+".to_string()]),
        (0, Some(1)) => forms.extend(["?".to_string(), "?".to_string()]),
        _ => {}
    }
    match high {
        Some(high) if low == 0 => forms.push(format!("{{,{high}}}")),
        Some(high) if low == high => forms.push(format!("{{{low}}}")),
        _ => {}
    }
    if quantifier == ONCE {
        forms.extend(vec![String::new(); 9]);
    }
    let mark = if reluctant { "?" } else { "" };
    (random.pick(&forms) + mark).into_bytes()
}

/// A text that is not refused, with at most the given number of places times F.
pub fn accepted(random: &mut Random, most_places: u128) -> Vec<u8> {
    for _ in 0..100 {
        let shape = shape(random);
        let tree = tree(random, &shape);
        let spaces = random.pick(&[0, 0, 10, 40]);
        let text = write(random, &tree, spaces);
        if fits(&text, most_places) {
            return text;
        }
    }
    let small: [&[u8]; 3] = [b"()", b"A", b"A?"];
    let small = small.into_iter().filter(|text| fits(text, most_places));
    random.pick(&small.collect::<Vec<_>>()).to_vec()
}

fn fits(text: &[u8], most_places: u128) -> bool {
    let few_places = |tree: Pattern| tree.count_with_end() * tree.factor() as u128 <= most_places;
    text.len() <= MOST_TEXT && pattern::judge(text).is_ok_and(few_places)
}

/// A text that the answer 4, 5, 6, 7 or 14 is given for, short enough to be no 3.
pub fn refused(random: &mut Random, answer: u8) -> Vec<u8> {
    loop {
        let text = match answer {
            4 => too_deep(random),
            5 => outside(random),
            14 => unfinished(random),
            6 => too_nested(random),
            _ => too_many_places(random),
        };
        if text.len() <= MOST_TEXT && pattern::judge(&text).err() == Some(answer) {
            return text;
        }
    }
}

/// The front of a pattern, or of one with a brace opened behind it.
fn unfinished(random: &mut Random) -> Vec<u8> {
    let mut text = accepted(random, 40);
    if random.chance(30) {
        text.extend(random.pick(&[&b" A{"[..], b" A{0", b" A{3,2", b" A{,", b" (", b" |"]));
        return text;
    }
    text.truncate(random.below(text.len() + 1));
    text
}

fn repeated(bytes: &[u8], times: usize) -> Vec<u8> {
    bytes.repeat(times)
}

/// Parentheses that pass 8: in a pattern, behind closing ones, or in no pattern.
fn too_deep(random: &mut Random) -> Vec<u8> {
    let inner = match random.chance(50) {
        true => b"A".to_vec(),
        false => accepted(random, 20),
    };
    let deep = 9 + random.below(3);
    match random.below(5) {
        0 | 1 => [repeated(b"(", deep), inner, repeated(b")", deep)].concat(),
        2 => {
            let closed = 1 + random.below(4);
            [repeated(b")", closed), repeated(b"(", closed + deep)].concat()
        }
        3 => [inner, repeated(b"(", deep)].concat(),
        _ => [
            repeated(b"(A|", 8),
            inner,
            repeated(b"(", deep - 8),
            b"B".to_vec(),
        ]
        .concat(),
    }
}

const OUTSIDE: [&[u8]; 62] = [
    b"",
    b" ",
    b"   ",
    b"A**",
    b"A? ?",
    b"A |",
    b"AB",
    b"{,}",
    b"A{,}",
    b"A???",
    b"A{2} ?",
    b"A{0}",
    b"A{0,0}",
    b"A{,0}",
    b"A{00}",
    b"A{07}",
    b"A{100}",
    b"A{3,2}",
    b"A{99,98}",
    b"A{1,100}",
    b"A{}",
    b"A{ 1}",
    b"A{1 }",
    b"A{1, 2}",
    b"A{1 ,2}",
    b"A{1,2,3}",
    b"A{-1}",
    b"A{+1}",
    b"A{1",
    b"A{1,",
    b"A{",
    b"A}",
    b"*",
    b"?",
    b"+",
    b"{1}",
    b"|",
    b"|A",
    b"A||B",
    b"A|",
    b"(",
    b")",
    b"(A",
    b"A)",
    b")(",
    b"(A|)",
    b"(|A)",
    b"(|)",
    b"(*)",
    b"A+*",
    b"A* ?",
    b"A*+",
    b"A+ ?",
    b"A{1}{2}",
    b"a",
    b"A\t",
    b"A\nB",
    b"A.B",
    b"A\0",
    b"A-B",
    b"^*?*",
    b"\xC3\x84",
];

/// Outside the language: listed, damaged, or a heap of tokens.
fn outside(random: &mut Random) -> Vec<u8> {
    match random.below(4) {
        0 => random.pick(&OUTSIDE).to_vec(),
        1 => heap(random),
        _ => {
            let text = accepted(random, 40);
            mutated(random, text)
        }
    }
}

const BYTES: &[u8] = b"ABCZ^$()|*+?{},0129  \t[@a";

/// One to three bytes taken out, put in, put in place of another or doubled.
pub fn mutated(random: &mut Random, mut text: Vec<u8>) -> Vec<u8> {
    for _ in 0..1 + random.below(3) {
        let at = random.below(text.len() + 1);
        let here = text.get(at).copied();
        match (random.below(4), here) {
            (0, Some(_)) => {
                text.remove(at);
            }
            (1, Some(_)) => text[at] = random.pick(BYTES),
            (2, Some(byte)) => text.insert(at, byte),
            _ => text.insert(at, random.pick(BYTES)),
        }
    }
    text
}

const TOKENS: [&[u8]; 24] = [
    b"A", b"B", b"A", b"^", b"$", b"(", b")", b"(", b")", b"()", b"|", b"*", b"+", b"?", b"{1}",
    b"{2,}", b"{,3}", b"{0,1}", b"{0}", b"{10", b"??", b" ", b" ", b"Z",
];

/// Tokens in any order.
pub fn heap(random: &mut Random) -> Vec<u8> {
    let count = random.below(9);
    (0..count)
        .flat_map(|_| random.pick(&TOKENS))
        .copied()
        .collect()
}

/// More than three repetitions of nothing in one another; some have too many places too.
const TOO_NESTED: [&[u8]; 12] = [
    b"((((A*)*)*)*)*",
    b"(((^*)*)*)*",
    b"(((()*)+){2,})*",
    b"((((A?)*)+?){3,}?)*",
    b"A ((((B|())* C?)* | D)+ A??)* B",
    b"(((((A?){99})*)*)*)*",
    b"((((((((A*)*)*)*)*)*)*)*)",
    b"((((A??)*?)*?)*?)*?",
    b"(((($)*)*)*){0,} A",
    b"((((A*)*)*)* B?)*",
    b"((((A|B*)*)*)*)*",
    b"(((A?)*)*){2} ((((A?)*)*)*)+",
];

/// Four or more of them around a body.
fn too_nested(random: &mut Random) -> Vec<u8> {
    if random.chance(40) {
        return random.pick(&TOO_NESTED).to_vec();
    }
    let deep = 4 + random.below(3);
    let body = nested(random, deep);
    match random.chance(50) {
        true => body,
        false => [b"A? ", &body[..], b" | B"].concat(),
    }
}

/// So many repetitions of nothing in one another, each around the one before and perhaps
/// something beside it that can take no row.
pub fn nested(random: &mut Random, deep: usize) -> Vec<u8> {
    let bodies: [&[u8]; 10] = [
        b"A?", b"A??", b"A*", b"B*?", b"()", b"^", b"A|()", b"()|B", b"A? B?", b"(A|B)?",
    ];
    let mut text = random.pick(&bodies).to_vec();
    for _ in 0..deep {
        let quantifier = random.pick(&[&b"*"[..], b"*", b"*?", b"+", b"+?", b"{0,}", b"{2,}?"]);
        text = match random.below(6) {
            0 => [b"(", &text[..], b"|A)", quantifier].concat(),
            1 => [b"(B|", &text[..], b")", quantifier].concat(),
            2 => [b"((", &text[..], b") A?)", quantifier].concat(),
            3 => [b"(B?? (", &text[..], b"))", quantifier].concat(),
            _ => [b"(", &text[..], b")", quantifier].concat(),
        };
    }
    text
}

const MANY: [&[u8]; 8] = [
    b"(A{16}){16}",
    b"(A{99}){99}",
    b"((A{99}){99}){99}",
    b"(((A{99}){99}){99}){99}",
    b"((((((((A{99}){99}){99}){99}){99}){99}){99}){99}){99}",
    b"((((((((A+){99,}){99,}){99,}){99,}){99,}){99,}){99,}){99,}",
    b"(A{,99}){2}",
    b"A{99} B{99} C{58}",
];

/// More than 256 places, by little or by as much as wraps 64 bits.
fn too_many_places(random: &mut Random) -> Vec<u8> {
    match random.below(4) {
        0 => random.pick(&MANY).to_vec(),
        1 => largest(),
        2 => near_limit(random),
        _ => {
            let body = accepted(random, 40);
            let times = random.between(5, 99).to_string();
            [b"((", body.as_slice(), b"){", times.as_bytes(), b"}){7}"].concat()
        }
    }
}

/// About 2 to the 65.8 places in 256 bytes.
pub fn largest() -> Vec<u8> {
    [
        repeated(b"(", 8),
        b"A+".to_vec(),
        repeated(b"A{,99}", 33),
        repeated(b"){99,}", 8),
    ]
    .concat()
}

/// A text with exactly so many places, END included: at most 8 repetitions one
/// around another, each of which makes c places to 99 c and up to 98 more. None
/// where that takes more than 256 bytes.
pub fn with_places(places: u128) -> Option<Vec<u8>> {
    let mut inside = places.checked_sub(1)?;
    let mut repetitions = Vec::new();
    while inside > 198 && repetitions.len() < 8 {
        repetitions.push(format!("){{{},99}}", 99 - inside % 99));
        inside /= 99;
    }
    let mut text = b"(".repeat(repetitions.len());
    if inside == 0 {
        text.extend(b"()");
    }
    while inside > 0 && text.len() <= MOST_TEXT {
        let (part, count) = match inside {
            198.. => ("A{,99}".to_string(), 198),
            _ => (format!("A{{{}}}", inside.min(99)), inside.min(99)),
        };
        text.extend(part.bytes());
        inside -= count;
    }
    text.extend(repetitions.iter().rev().flat_map(|part| part.bytes()));
    (text.len() <= MOST_TEXT).then_some(text)
}

/// A text with 250 to 262 places.
pub fn near_limit(random: &mut Random) -> Vec<u8> {
    let target = random.between(250, 262) - 1;
    let times = random.between(2, 15);
    let copies = random.between(80, 150) / times;
    let inner = format!("(A{{{}}}){{{times}}}", copies.clamp(1, 99));
    let mut left = target - copies.clamp(1, 99) * times;
    let mut text = inner.into_bytes();
    while left > 0 {
        let part = left.min(random.between(1, 99));
        match random.below(3) {
            0 => text.extend(format!(" B{{{part}}}").bytes()),
            1 if part >= 2 => {
                text.extend(format!(" C{{,{}}}", part / 2).bytes());
                left += part % 2;
            }
            _ => text.extend(format!(" (^|B{{{part}}})").bytes()),
        }
        left -= part;
    }
    text
}

/// Patterns that plain backtracking takes exponentially long for, forks whose
/// ways lead to one place, and loops in loops.
pub const ADVERSARIAL: [&[u8]; 32] = [
    b"(A?){5} A{5}",
    b"(A|A)+ B",
    b"(A|A|A){,3} B",
    b"(A+)+ B",
    b"(A+ A+)+ B",
    b"((A?){2} A)* B",
    b"(A*? A)+? B",
    b"(A|A A)* C",
    b"()?",
    b"()|()",
    b"()|()|A",
    b"(){,5} A",
    b"(()|())? A",
    b"(()?){3} A B",
    b"A* B",
    b"A*? B",
    b"(A|B)* C",
    b"((A+)+)+ B",
    b"A?? A?? A??",
    b"(A??){3} $",
    b"(A?){3} $",
    b"^ A* $",
    b"(^|A){,3}",
    b"^? A",
    b"(^|$|A) B",
    b"$",
    b"A $ | A",
    b"(A | A B) (C | B C)",
    b"(A|B){2,3}? B",
    b"(A{,2}){2} B",
    b"(A B?)+ $",
    b"(A ^)+ | B",
];

/// Repetitions of bodies that can take no row: with anchors and `()`, reluctant ones, in
/// one another, beside one another and with something behind them.
pub const NESTED: [&[u8]; 40] = [
    b"(A*)*",
    b"(A*)* B",
    b"(A??)*",
    b"(A??)* B",
    b"(A?)*? B",
    b"(A*)+",
    b"(A|B*)+ A",
    b"(A|())* B",
    b"(()|A)* B",
    b"(()|A)*? B",
    b"()*",
    b"()*? A",
    b"(){3,} A",
    b"^* A",
    b"(^|A)* B",
    b"(A ^?)* B",
    b"$* A",
    b"(A|$)*",
    b"((A|B)* $?)*",
    b"(A? B?)*",
    b"(A?? B??)*? A",
    b"(A B | A?)* B",
    b"((A*)*)*",
    b"((A?)*)* B",
    b"((A??)*?)* B",
    b"((A*)* B?)*",
    b"((A|B*)*|())* A",
    b"(((A?)*)*)*",
    b"(((A?)* B?)* A?)* B",
    b"(((A??)*?)*?)*? B",
    b"(((()|A)*|B)*)*",
    b"(A*)* (B*)*",
    b"((A*)*){2}",
    b"((A*)* B){1,2}",
    b"(A?){2,} B",
    b"((A?){2,}|B)*",
    b"((^ A)*|B)* A",
    b"(A (B?)* A)*",
    b"(A (B?)* | B)* A",
    b"(()*)*",
];

/// An adversarial text with at most so many places times F: one of the lists, or one
/// with a repeat count of its own, or nested at random. None if none is small enough.
pub fn adversarial(random: &mut Random, most_places: u128) -> Option<Vec<u8>> {
    for _ in 0..20 {
        let text = match random.below(8) {
            0..=2 => random.pick(&ADVERSARIAL).to_vec(),
            3 => random.pick(&NESTED).to_vec(),
            4 => {
                let deep = 1 + random.below(3);
                let body = nested(random, deep);
                random.pick(&[body.clone(), [&body[..], b" B"].concat()])
            }
            _ => adversarial_with_count(random),
        };
        if fits(&text, most_places) {
            return Some(text);
        }
    }
    None
}

fn adversarial_with_count(random: &mut Random) -> Vec<u8> {
    let k = random.between(2, 30);
    let m = random.between(2, 6);
    let text = match random.below(9) {
        0 => format!("(A?){{{k}}} A{{{k}}}"),
        1 => format!("(A??){{{k}}} A{{{k}}} $"),
        2 => format!("(A|A){{,{k}}} B"),
        3 => format!("(A|A){{{k},}}? B"),
        4 => format!("(A{{,{k}}}){{{m}}} B"),
        5 => format!("((A|()){{{m}}} B?){{{k}}} $"),
        6 => format!("((A+){{{m}}} A){{1,{k}}} C"),
        7 => format!("(A{{,{m}}}?){{,{k}}} (B|C) $"),
        _ => format!("((()?){{{m}}} A | A B){{{k},}} C"),
    };
    text.into_bytes()
}

/// All texts over an alphabet up to a length, the shorter ones first.
pub fn every_text(alphabet: &'static [u8], longest: usize) -> impl Iterator<Item = Vec<u8>> {
    (0..=longest).flat_map(move |length| {
        let count = alphabet.len().pow(length as u32);
        (0..count).map(move |number| digits(number, length, alphabet))
    })
}

fn digits(mut number: usize, length: usize, alphabet: &[u8]) -> Vec<u8> {
    let mut text = Vec::new();
    for _ in 0..length {
        text.push(alphabet[number % alphabet.len()]);
        number /= alphabet.len();
    }
    text
}

/// A text of any sort, for the judgement of texts alone.
pub fn any(random: &mut Random) -> Vec<u8> {
    let text = match random.below(20) {
        0..=6 => accepted(random, 256),
        7 => too_nested(random),
        8 => {
            let deep = random.below(5);
            nested(random, deep)
        }
        9..=11 => {
            let text = accepted(random, 60);
            mutated(random, text)
        }
        12..=13 => outside(random),
        14..=15 => heap(random),
        16 => too_deep(random),
        17 => near_limit(random),
        18 => too_many_places(random),
        _ => random.pick(&ADVERSARIAL).to_vec(),
    };
    match text.len() <= MOST_TEXT {
        true => text,
        false => any(random),
    }
}
