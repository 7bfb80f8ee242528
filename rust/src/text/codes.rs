//! Code tables: which number stands for which text of a column, so that a column of words can be
//! searched. In a query it is a line such as `event: offered=1, refused=2, 'not read'=3, *=0`, where
//! `*` stands for every other text.

use std::collections::HashMap;

use super::fault::Fault;
use super::words::{Word, Words};

/// The code table of one column.
#[derive(Clone, Debug, Default, PartialEq, Eq)]
pub struct Codes {
    /// In the order in which they are written, and to be looked up.
    codes: Vec<(String, i32)>,
    by_text: HashMap<Vec<u8>, i32>,
    others: Option<i32>,
}

/// The most texts that a table can have.
const MOST_CODES: usize = 4096;
/// In so few it is quicker to look at each.
const FEW: usize = 8;

impl Codes {
    /// The number that stands for a text; none where the table has none for it.
    pub fn code(&self, text: &[u8]) -> Option<i32> {
        self.listed(text).or(self.others)
    }

    /// The number that the table lists for a text.
    pub fn listed(&self, text: &[u8]) -> Option<i32> {
        if self.codes.len() > FEW {
            return self.by_text.get(text).copied();
        }
        let mut codes = self.codes.iter();
        let found = codes.find(|(known, _)| known.as_bytes() == text);
        found.map(|(_, code)| *code)
    }

    /// The texts with their numbers, in the order in which they are written.
    pub fn texts(&self) -> impl Iterator<Item = (&str, i32)> {
        self.codes.iter().map(|(text, code)| (text.as_str(), *code))
    }

    /// What is expected where one of the texts has to stand.
    pub(crate) fn expected(&self) -> String {
        const MOST_SHOWN: usize = 40;
        let quoted = |(text, _): &(String, i32)| format!("'{}'", text.replace('\'', "''"));
        let mut all: Vec<String> = self.codes.iter().take(MOST_SHOWN).map(quoted).collect();
        if self.codes.len() > MOST_SHOWN {
            all.push(String::from("..."));
        }
        format!("one of the codes {}", all.join(", "))
    }
}

/// Codes parted by commas, to the end of the line.
pub fn codes(words: &mut Words<'_>) -> Result<Codes, Fault> {
    let mut codes = Codes::default();
    loop {
        code(words, &mut codes)?;
        if words.peek() == &Word::End {
            return Ok(codes);
        }
        if !words.pass_sign(",") {
            return Err(words.fault("a comma or the end of the line"));
        }
    }
}

fn code(words: &mut Words<'_>, codes: &mut Codes) -> Result<(), Fault> {
    let text = match words.peek() {
        Word::Name(text) | Word::Quoted(text) | Word::Literal(text) => Some(text.clone()),
        Word::Sign("*") => None,
        _ => return Err(words.fault("a text and its code, such as `refused=2` or `*=0`")),
    };
    let again = match &text {
        Some(text) => codes.listed(text.as_bytes()).is_some(),
        None => codes.others.is_some(),
    };
    if codes.codes.len() >= MOST_CODES {
        return Err(words.fault("at most 4096 codes for one column"));
    }
    if again {
        return Err(words.fault("a text that has no code yet"));
    }
    words.pass();
    words.want_sign("=")?;
    let code = signed_number(words)?;
    match text {
        Some(text) => {
            codes.by_text.insert(text.as_bytes().to_vec(), code);
            codes.codes.push((text, code));
        }
        None => codes.others = Some(code),
    }
    Ok(())
}

pub const NUMBER: &str = "a whole number from -2147483648 to 2147483647";

/// A number with a sign or without.
pub fn signed_number(words: &mut Words<'_>) -> Result<i32, Fault> {
    let negative = words.pass_sign("-");
    if !negative {
        words.pass_sign("+");
    }
    number(words, negative)
}

/// Digits behind a sign that was read.
pub fn number(words: &mut Words<'_>, negative: bool) -> Result<i32, Fault> {
    let number = match words.peek() {
        Word::Digits(digits) if negative => format!("-{digits}").parse().ok(),
        Word::Digits(digits) => digits.parse().ok(),
        _ => None,
    };
    let number = number.ok_or_else(|| words.fault(NUMBER))?;
    words.pass();
    Ok(number)
}
