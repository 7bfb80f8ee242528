//! The pattern: reading a text to a tree, and what is judged of the text and
//! the tree alone: answers 4 to 7 and 14, the number of places P, and the letters that
//! answer 9 asks for. From document 01, "Pattern language", with the count of
//! "Places and preferment", and document 02, R-3, for repetitions of nothing. The text is cut into tokens first, so that spaces
//! and touching letters are settled before the grammar is read.

use std::collections::BTreeSet;

pub const MOST_PLACES: u128 = 256;
pub const DEEPEST_PARENTHESES: i64 = 8;
/// So many repetitions of a body that can take no row may be nested in one another.
pub const DEEPEST_REPETITIONS: usize = 3;

/// Branches parted by `|`; at least one.
#[derive(Clone, Debug, PartialEq, Eq)]
pub struct Pattern {
    pub branches: Vec<Branch>,
}

/// Factors one after another; at least one.
#[derive(Clone, Debug, PartialEq, Eq)]
pub struct Branch {
    pub factors: Vec<Factor>,
}

#[derive(Clone, Debug, PartialEq, Eq)]
pub struct Factor {
    pub primary: Primary,
    pub quantifier: Quantifier,
}

#[derive(Clone, Debug, PartialEq, Eq)]
pub enum Primary {
    Letter(u8),
    /// `^`: before the first row.
    First,
    /// `$`: behind the last row.
    Last,
    /// `()`
    Empty,
    Group(Pattern),
}

/// How often a primary stands; no upper bound is `None`.
#[derive(Clone, Copy, Debug, PartialEq, Eq)]
pub struct Quantifier {
    pub low: u32,
    pub high: Option<u32>,
    pub reluctant: bool,
}

/// What a factor without a quantifier has.
pub const ONCE: Quantifier = Quantifier {
    low: 1,
    high: Some(1),
    reluctant: false,
};

/// Reads a text, or gives the first of the answers 4, 5 or 14, 6 and 7 that
/// applies.
pub fn judge(text: &[u8]) -> Result<Pattern, u8> {
    if parentheses_pass_eight(text) {
        return Err(4);
    }
    let Some(pattern) = read(text) else {
        return Err(if begins(text) { 14 } else { 5 });
    };
    if pattern.nesting() > DEEPEST_REPETITIONS {
        return Err(6);
    }
    if pattern.count_with_end() > MOST_PLACES {
        return Err(7);
    }
    Ok(pattern)
}

/// Answer 4. The raw bytes are counted, also where the text is no pattern; the
/// count may fall below 0.
pub fn parentheses_pass_eight(text: &[u8]) -> bool {
    let mut open = 0i64;
    for &byte in text {
        match byte {
            b'(' => open += 1,
            b')' => open -= 1,
            _ => {}
        }
        if open > DEEPEST_PARENTHESES {
            return true;
        }
    }
    false
}

/// Reads a text to its tree. None if it is outside the language: 5 or 14.
pub fn read(text: &[u8]) -> Option<Pattern> {
    let mut reader = Reader {
        tokens: tokens(text)?,
        at: 0,
    };
    let pattern = reader.pattern()?;
    match reader.next() {
        None => Some(pattern),
        Some(_) => None,
    }
}

/// Whether some text of the language begins with this one. If one of these four ends, and behind
/// it a `)` for each parenthesis that is open, makes a text of the language, that text begins so.
/// If a text of the language begins so, one of them will do, by where this one stops:
/// - Between two tokens, at the start or at the end: `^`. A factor may begin at each of these
///   places: at the start, behind `(` and `|`, and behind a factor. Unlike a letter, `^` may touch
///   what is before it. Behind a factor the branch and the pattern may end, and then each `)`
///   makes a factor of what it closes.
/// - Inside a quantifier in braces, the one token of more bytes, but for the mark `?`, without
///   which it is whole as well. Each of these ends makes it whole, so that each `)` may follow:
///   `,}` behind `{0`; `}` behind any other `{n`, behind `{n,` and behind an upper bound that is
///   large enough; `9}` behind `{`, `{,` and an upper bound of one digit that is too small yet,
///   as that is the largest it can become. One of two digits, or a 0, becomes no other.
///
/// Parentheses are counted by bytes: where one stands inside braces, or closes what is not open,
/// no text of the language begins so, and none of the ends helps.
pub fn begins(text: &[u8]) -> bool {
    let count = |byte: u8| text.iter().filter(|&&it| it == byte).count();
    let open = count(b'(').saturating_sub(count(b')'));
    let ends: [&[u8]; 4] = [b"^", b"}", b"9}", b",}"];
    ends.iter()
        .any(|end| read(&[text, end, &b")".repeat(open)].concat()).is_some())
}

/// The offset of answers 5 and 14: how many bytes of the text begin a text of
/// the language.
pub fn offset(text: &[u8]) -> u64 {
    (1..=text.len())
        .take_while(|&length| begins(&text[..length]))
        .count() as u64
}

#[derive(Clone, Copy, Debug, PartialEq, Eq)]
enum Token {
    Letter(u8),
    First,
    Last,
    Open,
    Close,
    Bar,
    Quantifier(Quantifier),
}

/// Cuts the text into tokens. A space is the byte 0x20 and nothing else.
fn tokens(text: &[u8]) -> Option<Vec<Token>> {
    let mut tokens = Vec::new();
    let mut at = 0;
    while at < text.len() {
        let mut length = 1;
        match text[at] {
            b' ' => {}
            letter if letter.is_ascii_uppercase() => {
                if at > 0 && text[at - 1].is_ascii_uppercase() {
                    return None;
                }
                tokens.push(Token::Letter(letter));
            }
            b'^' => tokens.push(Token::First),
            b'$' => tokens.push(Token::Last),
            b'(' => tokens.push(Token::Open),
            b')' => tokens.push(Token::Close),
            b'|' => tokens.push(Token::Bar),
            _ => {
                let (quantifier, bytes) = quantifier(&text[at..])?;
                tokens.push(Token::Quantifier(quantifier));
                length = bytes;
            }
        }
        at += length;
    }
    Some(tokens)
}

/// The quantifier at the head of the bytes and how many bytes it takes, its
/// reluctant mark included. The mark is taken wherever it stands: were it left,
/// it would be a second quantifier, which no factor may have.
fn quantifier(bytes: &[u8]) -> Option<(Quantifier, usize)> {
    let (low, high, length) = match bytes[0] {
        b'*' => (0, None, 1),
        b'+' => (1, None, 1),
        b'?' => (0, Some(1), 1),
        b'{' => {
            let close = bytes.iter().position(|&byte| byte == b'}')?;
            let (low, high) = bounds(&bytes[1..close])?;
            (low, high, close + 1)
        }
        _ => return None,
    };
    let reluctant = bytes.get(length) == Some(&b'?');
    let quantifier = Quantifier {
        low,
        high,
        reluctant,
    };
    Some((quantifier, length + usize::from(reluctant)))
}

/// What stands between the braces: `n`, `n,`, `,m` or `n,m`.
fn bounds(held: &[u8]) -> Option<(u32, Option<u32>)> {
    let Some(comma) = held.iter().position(|&byte| byte == b',') else {
        let exact = bound(held)?;
        return (exact >= 1).then_some((exact, Some(exact)));
    };
    let (before, behind) = (&held[..comma], &held[comma + 1..]);
    match (before.is_empty(), behind.is_empty()) {
        (true, true) => None,
        (false, true) => Some((bound(before)?, None)),
        (true, false) => bounds_in_order(0, bound(behind)?),
        (false, false) => bounds_in_order(bound(before)?, bound(behind)?),
    }
}

fn bounds_in_order(low: u32, high: u32) -> Option<(u32, Option<u32>)> {
    (high >= 1 && high >= low).then_some((low, Some(high)))
}

/// A bound of 0 to 99 in decimal without leading zero.
fn bound(digits: &[u8]) -> Option<u32> {
    let value = |digit: u8| digit.is_ascii_digit().then(|| u32::from(digit - b'0'));
    match digits {
        [one] => value(*one),
        [b'0', _] => None,
        [ten, one] => Some(value(*ten)? * 10 + value(*one)?),
        _ => None,
    }
}

/// Reads the grammar from the tokens; each function takes what is its own.
struct Reader {
    tokens: Vec<Token>,
    at: usize,
}

impl Reader {
    fn next(&self) -> Option<Token> {
        self.tokens.get(self.at).copied()
    }

    fn take(&mut self, token: Token) -> bool {
        let taken = self.next() == Some(token);
        self.at += usize::from(taken);
        taken
    }

    fn pattern(&mut self) -> Option<Pattern> {
        let mut branches = vec![self.branch()?];
        while self.take(Token::Bar) {
            branches.push(self.branch()?);
        }
        Some(Pattern { branches })
    }

    fn branch(&mut self) -> Option<Branch> {
        let mut factors = vec![self.factor()?];
        while !matches!(self.next(), None | Some(Token::Bar | Token::Close)) {
            factors.push(self.factor()?);
        }
        Some(Branch { factors })
    }

    fn factor(&mut self) -> Option<Factor> {
        let primary = self.primary()?;
        let mut quantifier = ONCE;
        if let Some(Token::Quantifier(written)) = self.next() {
            quantifier = written;
            self.at += 1;
        }
        Some(Factor {
            primary,
            quantifier,
        })
    }

    fn primary(&mut self) -> Option<Primary> {
        let token = self.next()?;
        self.at += 1;
        match token {
            Token::Letter(letter) => Some(Primary::Letter(letter)),
            Token::First => Some(Primary::First),
            Token::Last => Some(Primary::Last),
            Token::Open => self.parenthesis(),
            Token::Close | Token::Bar | Token::Quantifier(_) => None,
        }
    }

    /// What stands behind an opening parenthesis: nothing, or a pattern.
    fn parenthesis(&mut self) -> Option<Primary> {
        if self.take(Token::Close) {
            return Some(Primary::Empty);
        }
        let inner = self.pattern()?;
        self.take(Token::Close).then_some(Primary::Group(inner))
    }
}

impl Pattern {
    pub fn can_take_no_row(&self) -> bool {
        self.branches.iter().any(Branch::can_take_no_row)
    }

    /// How many unbounded repetitions of a body that can take no row are nested in one
    /// another where most are.
    pub fn nesting(&self) -> usize {
        self.factors().map(Factor::nesting).max().unwrap_or(0)
    }

    /// F.
    pub fn factor(&self) -> usize {
        1 << self.nesting()
    }

    /// P: all places, END included.
    pub fn count_with_end(&self) -> u128 {
        self.count().saturating_add(1)
    }

    /// The places without END. The largest that a text of 256 bytes can name is
    /// far below what 128 bits hold; beyond that it stays at the largest number.
    pub fn count(&self) -> u128 {
        let fork = u128::from(self.branches.len() >= 2);
        self.branches
            .iter()
            .fold(fork, |sum, branch| sum.saturating_add(branch.count()))
    }

    pub fn letters(&self) -> BTreeSet<u8> {
        self.factors()
            .flat_map(|factor| match &factor.primary {
                Primary::Letter(letter) => BTreeSet::from([*letter]),
                Primary::Group(inner) => inner.letters(),
                Primary::First | Primary::Last | Primary::Empty => BTreeSet::new(),
            })
            .collect()
    }

    fn factors(&self) -> impl Iterator<Item = &Factor> {
        self.branches.iter().flat_map(|branch| &branch.factors)
    }
}

impl Branch {
    pub fn can_take_no_row(&self) -> bool {
        self.factors.iter().all(Factor::can_take_no_row)
    }

    pub fn count(&self) -> u128 {
        self.factors
            .iter()
            .fold(0, |sum, factor| factor.count().saturating_add(sum))
    }
}

impl Factor {
    pub fn can_take_no_row(&self) -> bool {
        self.quantifier.low == 0 || self.primary.can_take_no_row()
    }

    /// An unbounded repetition of a body that can take no row.
    pub fn repeats_nothing(&self) -> bool {
        self.quantifier.high.is_none() && self.primary.can_take_no_row()
    }

    fn nesting(&self) -> usize {
        let inside = match &self.primary {
            Primary::Group(inner) => inner.nesting(),
            _ => 0,
        };
        inside + usize::from(self.repeats_nothing())
    }

    /// The copies that must stand, then a fork and a copy for each further one;
    /// without upper bound one fork and one copy do.
    pub fn count(&self) -> u128 {
        let body = self.primary.count();
        let low = u128::from(self.quantifier.low);
        let forks = match self.quantifier.high {
            Some(high) => u128::from(high) - low,
            None => 1,
        };
        let fork_and_copy = body.saturating_add(1);
        low.saturating_mul(body)
            .saturating_add(forks.saturating_mul(fork_and_copy))
    }
}

impl Primary {
    pub fn can_take_no_row(&self) -> bool {
        match self {
            Primary::Letter(_) => false,
            Primary::First | Primary::Last | Primary::Empty => true,
            Primary::Group(inner) => inner.can_take_no_row(),
        }
    }

    pub fn count(&self) -> u128 {
        match self {
            Primary::Letter(_) | Primary::First | Primary::Last => 1,
            Primary::Empty => 0,
            Primary::Group(inner) => inner.count(),
        }
    }
}
