//! The skip line: `past last row`, `to next row`, `to first A` or `to last A`, in capitals or not
//! but for the letter. And why a search could not go on by such a line behind a match: the library
//! only says that it could not, and the program `mireladle` not even that.

use crate::Skip;

use super::fault::Fault;
use super::words::Words;

/// What a skip line can say.
const SKIPS: &str = "`past last row`, `to next row`, `to first` or `to last` and a letter";

/// The skip that the line says, to its end.
pub fn skip(words: &mut Words<'_>) -> Result<Skip, Fault> {
    let skip = if words.pass_keyword("past") {
        words.want_keywords(&["last", "row"])?;
        Skip::PastLastRow
    } else if words.pass_keyword("to") {
        to(words)?
    } else {
        return Err(words.fault(SKIPS));
    };
    words.want_end("the end of the line")?;
    Ok(skip)
}

/// What stands behind `to`.
fn to(words: &mut Words<'_>) -> Result<Skip, Fault> {
    if words.pass_keyword("next") {
        words.want_keywords(&["row"])?;
        Ok(Skip::ToNextRow)
    } else if words.pass_keyword("first") {
        Ok(Skip::ToFirst(words.want_letter(LETTER)?))
    } else if words.pass_keyword("last") {
        Ok(Skip::ToLast(words.want_letter(LETTER)?))
    } else {
        Err(words.fault("`next row`, or `first` or `last` and a letter"))
    }
}

const LETTER: &str = "a letter A to Z";

/// The letter whose row a search goes on at.
pub fn letter_of(skip: Skip) -> Option<char> {
    match skip {
        Skip::ToFirst(letter) | Skip::ToLast(letter) => Some(letter),
        _ => None,
    }
}

/// Why a search cannot go on behind the match with this number and these labels, in words; none
/// where it can.
pub fn no_row_behind(skip: Skip, number: u64, labels: &str) -> Option<String> {
    let (which, letter, at) = match skip {
        Skip::ToFirst(letter) => ("first", letter, labels.find(letter)),
        Skip::ToLast(letter) => ("last", letter, labels.rfind(letter)),
        _ => return None,
    };
    match at {
        // Behind an empty match it goes one row on.
        None if labels.is_empty() => None,
        None => Some(format!("no row of match {number} is labelled {letter}")),
        Some(0) => Some(format!(
            "the {which} row labelled {letter} is the first row of match {number}"
        )),
        Some(_) => None,
    }
}

#[cfg(test)]
mod tests {
    use super::*;

    #[test]
    fn why_a_search_cannot_go_on() {
        let why = |skip, labels| no_row_behind(skip, 7, labels).unwrap_or_default();
        let (first, last) = (Skip::ToFirst('A'), Skip::ToLast('A'));
        assert_eq!(why(first, "BB"), "no row of match 7 is labelled A");
        assert_eq!(why(last, "B"), "no row of match 7 is labelled A");
        let is_first = |which| format!("the {which} row labelled A is the first row of match 7");
        assert_eq!(why(first, "A"), is_first("first"));
        assert_eq!(why(first, "ABA"), is_first("first"));
        assert_eq!(why(last, "ABB"), is_first("last"));
        for (skip, labels) in [
            (first, ""),
            (last, ""),
            (first, "BA"),
            (last, "BAB"),
            (last, "AA"),
            (Skip::PastLastRow, "B"),
            (Skip::ToNextRow, "A"),
        ] {
            assert_eq!(why(skip, labels), "", "{skip:?} {labels}");
        }
    }
}
