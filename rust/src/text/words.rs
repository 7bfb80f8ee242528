//! The words of a query's text: names, whole numbers, texts in quotes and signs, each with its
//! place, and a cursor over them. Comments are left out. Every text has words: a character that
//! belongs to none is a word of its own, which no reader expects.

use super::fault::{shown, Fault};
use super::lines::lines;

/// One word.
#[derive(Clone, Debug, PartialEq, Eq)]
pub enum Word {
    /// Letters, digits and `_`, not beginning with a digit.
    Name(String),
    /// What stood in double quotes: always a name, of a column or of a measure.
    Quoted(String),
    /// What stood in single quotes: text, as a cell has it.
    Literal(String),
    /// Digits; how large the number may be is the reader's affair.
    Digits(String),
    /// One of `SIGNS`.
    Sign(&'static str),
    /// A character that belongs to no word, or a quote that is not closed.
    Other(char),
    /// Behind the last word.
    End,
}

/// All signs; one that begins like a shorter one stands before it.
const SIGNS: [&str; 16] = [
    "<>", "!=", "<=", ">=", "<", ">", "=", "(", ")", ",", ".", "*", "+", "-", ":", ";",
];

impl Word {
    /// How a fault shows the word, where the text ends behind these words.
    fn shown(&self, end: &str) -> String {
        match self {
            Word::Name(text) | Word::Quoted(text) | Word::Digits(text) => shown(text),
            Word::Literal(text) => shown(&format!("'{text}'")),
            Word::Sign(sign) => shown(sign),
            Word::Other(other) => format!("{other:?}"),
            Word::End => String::from(end),
        }
    }
}

/// A word with its place in the text.
#[derive(Clone, Debug, PartialEq, Eq)]
pub struct Token {
    pub word: Word,
    pub line: usize,
    pub column: usize,
    /// Its bytes in the text: where it begins and where it ends.
    pub start: usize,
    pub end: usize,
    /// Whether it is the first of its line.
    pub first: bool,
}

/// All words of a text.
pub fn tokens(text: &str) -> Vec<Token> {
    let mut all = Vec::new();
    for (number, line) in (1..).zip(lines(text)) {
        let before = offset_in(text, line);
        line_tokens(number, before, without_comment(line), &mut all);
    }
    all
}

/// At which byte of a text a part of it begins.
pub fn offset_in(text: &str, part: &str) -> usize {
    let (text, part) = (text.as_ptr() as usize, part.as_ptr() as usize);
    part.saturating_sub(text)
}

fn line_tokens(line: usize, before: usize, code: &str, all: &mut Vec<Token>) {
    let (mut left, mut column, mut first) = (code, 1_usize, true);
    while let Some(c) = left.chars().next() {
        if c.is_whitespace() {
            left = left.strip_prefix(c).unwrap_or("");
            column = column.saturating_add(1);
            continue;
        }
        let (word, rest) = first_word(left, c);
        let start = before.saturating_add(offset_in(code, left));
        let length = left.len().saturating_sub(rest.len());
        let end = start.saturating_add(length);
        all.push(Token {
            word,
            line,
            column,
            start,
            end,
            first,
        });
        column = column.saturating_add(width(left).saturating_sub(width(rest)));
        (left, first) = (rest, false);
    }
}

/// The part of a line in front of its comment, which `#` or `--` begins. In quotes they begin none.
pub fn without_comment(line: &str) -> &str {
    let mut quote = None;
    let mut before = ' ';
    for (at, c) in line.char_indices() {
        match (quote, c) {
            (None, '#') => return line.get(..at).unwrap_or(line),
            (None, '-') if before == '-' => {
                return line.get(..at.saturating_sub(1)).unwrap_or(line)
            }
            (None, '"' | '\'') => quote = Some(c),
            (Some(open), _) if open == c => quote = None,
            _ => {}
        }
        before = c;
    }
    line
}

/// A cursor over words.
#[derive(Clone, Debug)]
pub struct Words<'a> {
    tokens: &'a [Token],
    at: usize,
    /// The place behind the last word, and what is said to be found there.
    end: (usize, usize),
    end_words: &'static str,
    /// Whether they are SQL's clauses, in which letters may be small.
    pub sql: bool,
}

impl<'a> Words<'a> {
    /// The words of one line, which ends at this place.
    pub fn line(tokens: &'a [Token], end: (usize, usize)) -> Words<'a> {
        Words {
            tokens,
            at: 0,
            end,
            end_words: "the end of the line",
            sql: false,
        }
    }

    /// The words of clauses in SQL's spelling, up to the end of the text at this place.
    pub fn clauses(tokens: &'a [Token], end: (usize, usize)) -> Words<'a> {
        Words {
            tokens,
            at: 0,
            end,
            end_words: "the end of the query",
            sql: true,
        }
    }

    /// The token to be read next.
    pub fn token(&self) -> Option<&'a Token> {
        self.tokens.get(self.at)
    }

    /// How many words were passed.
    pub fn passed(&self) -> usize {
        self.at.min(self.tokens.len())
    }

    /// The place of the word to be read next.
    pub fn place(&self) -> (usize, usize) {
        self.token()
            .map_or(self.end, |token| (token.line, token.column))
    }

    /// The word to be read next.
    pub fn peek(&self) -> &'a Word {
        self.peek_behind(0)
    }

    /// The word so many behind the one to be read next.
    pub fn peek_behind(&self, words: usize) -> &'a Word {
        self.tokens
            .get(self.at.saturating_add(words))
            .map_or(&Word::End, |token| &token.word)
    }

    /// Goes on to the word behind the next one.
    pub fn pass(&mut self) {
        self.at = self.at.saturating_add(1);
    }

    /// Passes a sign if it is the next word.
    pub fn pass_sign(&mut self, sign: &str) -> bool {
        let there = matches!(self.peek(), Word::Sign(next) if *next == sign);
        if there {
            self.pass();
        }
        there
    }

    /// Passes a sign, or tells that it was expected.
    pub fn want_sign(&mut self, sign: &str) -> Result<(), Fault> {
        match self.pass_sign(sign) {
            true => Ok(()),
            false => Err(self.fault(shown(sign))),
        }
    }

    /// Whether the word so many behind the next one is a keyword, in capitals or not.
    pub fn is_keyword(&self, behind: usize, keyword: &str) -> bool {
        let word = self.peek_behind(behind);
        matches!(word, Word::Name(name) if name.eq_ignore_ascii_case(keyword))
    }

    /// Passes a keyword, in capitals or not, if it is the next word.
    pub fn pass_keyword(&mut self, keyword: &str) -> bool {
        let there = self.is_keyword(0, keyword);
        if there {
            self.pass();
        }
        there
    }

    /// Passes keywords one behind the other, or tells which of them was expected.
    pub fn want_keywords(&mut self, keywords: &[&str]) -> Result<(), Fault> {
        for keyword in keywords {
            if !self.pass_keyword(keyword) {
                return Err(self.fault(format!("`{keyword}`")));
            }
        }
        Ok(())
    }

    /// Passes a letter and gives it, or tells that what is named was expected.
    pub fn want_letter(&mut self, expected: &str) -> Result<char, Fault> {
        let letter = match self.peek() {
            Word::Name(name) if self.sql => letter(&name.to_ascii_uppercase()),
            Word::Name(name) => letter(name),
            _ => None,
        };
        let letter = letter.ok_or_else(|| self.fault(expected))?;
        self.pass();
        Ok(letter)
    }

    /// The fault that something else was expected in place of the next word.
    pub fn fault(&self, expected: impl Into<String>) -> Fault {
        let (line, column) = self.place();
        Fault::new(line, column, expected, self.peek().shown(self.end_words))
    }

    /// The end of a line, or nothing where clauses go on.
    pub fn want_end(&self, expected: &str) -> Result<(), Fault> {
        match self.sql || self.peek() == &Word::End {
            true => Ok(()),
            false => Err(self.fault(expected)),
        }
    }
}

fn width(text: &str) -> usize {
    text.chars().count()
}

/// The word at the front of a text that begins with this character, no space, and what lies behind it.
fn first_word(text: &str, first: char) -> (Word, &str) {
    let behind_first = text.strip_prefix(first).unwrap_or("");
    if first.is_ascii_digit() {
        let (digits, rest) = run(text, |c| c.is_ascii_digit());
        return (Word::Digits(String::from(digits)), rest);
    }
    if is_name_start(first) {
        let (name, rest) = run(text, is_in_name);
        return (Word::Name(String::from(name)), rest);
    }
    if first == '"' || first == '\'' {
        return match quoted(behind_first, first) {
            Some((name, rest)) if first == '"' => (Word::Quoted(name), rest),
            Some((text, rest)) => (Word::Literal(text), rest),
            None => (Word::Other(first), behind_first),
        };
    }
    for sign in SIGNS {
        if let Some(rest) = text.strip_prefix(sign) {
            return (Word::Sign(sign), rest);
        }
    }
    (Word::Other(first), behind_first)
}

/// Whether a name may begin with this character.
pub fn is_name_start(c: char) -> bool {
    c.is_alphabetic() || c == '_'
}

fn is_in_name(c: char) -> bool {
    is_name_start(c) || c.is_numeric()
}

/// Whether a text is one name, which needs no quotes.
pub fn is_name(text: &str) -> bool {
    text.starts_with(is_name_start) && text.chars().all(is_in_name)
}

/// The letter that a word is, if it is one.
pub fn letter(word: &str) -> Option<char> {
    let mut characters = word.chars();
    match (characters.next(), characters.next()) {
        (Some(letter @ 'A'..='Z'), None) => Some(letter),
        _ => None,
    }
}

/// The longest front part of a text whose characters all belong, and the rest.
fn run(text: &str, belongs: impl Fn(char) -> bool) -> (&str, &str) {
    let end = text.find(|c| !belongs(c)).unwrap_or(text.len());
    (text.get(..end).unwrap_or(""), text.get(end..).unwrap_or(""))
}

/// Reads on behind an opening quote: what is quoted, with two quotes for one, and what lies behind
/// the closing quote.
fn quoted(text: &str, quote: char) -> Option<(String, &str)> {
    let mut inside = String::new();
    let mut left = text;
    loop {
        let (part, behind) = left.split_once(quote)?;
        inside.push_str(part);
        match behind.strip_prefix(quote) {
            Some(rest) => {
                inside.push(quote);
                left = rest;
            }
            None => return Some((inside, behind)),
        }
    }
}

#[cfg(test)]
mod tests {
    use super::*;

    fn all(text: &str) -> Vec<(usize, Word)> {
        let placed = |token: Token| (token.column, token.word);
        tokens(text).into_iter().map(placed).collect()
    }

    #[test]
    fn words_with_their_columns() {
        let name = |text: &str| Word::Name(String::from(text));
        let digits = |text: &str| Word::Digits(String::from(text));
        assert_eq!(
            all("c0<=NEXT( c_1,2)-05"),
            [
                (1, name("c0")),
                (3, Word::Sign("<=")),
                (5, name("NEXT")),
                (9, Word::Sign("(")),
                (11, name("c_1")),
                (14, Word::Sign(",")),
                (15, digits("2")),
                (16, Word::Sign(")")),
                (17, Word::Sign("-")),
                (18, digits("05")),
            ]
        );
        assert_eq!(all("\u{E9}a = 1")[1], (4, Word::Sign("=")));
        assert_eq!(all("1x"), [(1, digits("1")), (2, name("x"))]);
        assert_eq!(
            all("a !b"),
            [(1, name("a")), (3, Word::Other('!')), (4, name("b"))]
        );
    }

    #[test]
    fn quoted_names_and_texts() {
        assert_eq!(
            all("\"a \"\"b\"\" #\" = 'it''s -- #1'"),
            [
                (1, Word::Quoted(String::from("a \"b\" #"))),
                (13, Word::Sign("=")),
                (15, Word::Literal(String::from("it's -- #1"))),
            ]
        );
        assert_eq!(all("\"a")[0], (1, Word::Other('"')));
        assert_eq!(all("'a")[0], (1, Word::Other('\'')));
        assert_eq!(quoted("a\"\"", '"'), None);
        assert_eq!(quoted("\" b", '"'), Some((String::new(), " b")));
    }

    #[test]
    fn places_and_comments() {
        let placed = |text: &str| -> Vec<(usize, usize, usize, usize, bool)> {
            let place = |t: Token| (t.line, t.column, t.start, t.end, t.first);
            tokens(text).into_iter().map(place).collect()
        };
        assert_eq!(
            placed("a # b\r\n \u{E9} b -- c\n--\nd"),
            [
                (1, 1, 0, 1, true),
                (2, 2, 8, 10, true),
                (2, 4, 11, 12, false),
                (4, 1, 21, 22, true)
            ]
        );
    }

    #[test]
    fn a_fault_names_the_next_word() {
        let tokens = tokens("   a  ");
        let mut words = Words::line(&tokens, (1, 5));
        assert_eq!(words.fault("b").to_string(), "1:4: expected b, found `a`");
        words.pass();
        assert_eq!(
            words.fault("b").to_string(),
            "1:5: expected b, found the end of the line"
        );
        words.pass();
        assert_eq!(words.peek(), &Word::End);
    }
}
