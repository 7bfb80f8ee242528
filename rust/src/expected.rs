//! What can stand behind the front of a pattern's text: the bytes after which some pattern can
//! still begin with it, and whether the front is a pattern itself. Each byte is tried, and the
//! library says whether it can stand there: all that is known here of the pattern language is that
//! parentheses make groups. Tested here over all short fronts, and in tests/search.rs.

use std::fmt;

use crate::error::DONE;
use crate::lent;
use crate::query::pattern_alone;

/// The bytes that can stand behind the front of a pattern's text, and whether the text can end
/// there.
///
/// It is what [`Error::NotAPattern`](crate::Error::NotAPattern) and
/// [`Error::PatternEnds`](crate::Error::PatternEnds) tell of the place where a text is wrong or
/// ends. Displayed, it is a part of a sentence: ``a digit 3 to 9 or `}` ``.
///
/// ```
/// use mireladle::Expected;
///
/// let behind = Expected::behind(b"A{30,").unwrap();
/// assert_eq!(behind.bytes().collect::<Vec<u8>>(), b"3456789}");
/// assert!(!behind.end());
/// assert_eq!(behind.to_string(), "a digit 3 to 9 or `}`");
/// ```
#[derive(Clone, Copy, Debug, PartialEq, Eq, Hash)]
pub struct Expected {
    /// Bit b of the first for byte b, and of the second for byte 128 + b.
    bytes: [u128; 2],
    end: bool,
}

/// What the library says of a text.
enum Judged {
    /// It is in the pattern language.
    Pattern,
    /// It is not, but some pattern begins with it.
    Front,
    /// No pattern begins with it.
    Wrong,
    /// It is too long, or has too many parentheses open, for the library to say.
    Unjudged,
}

fn judge(text: &[u8]) -> Judged {
    match lent::room(&pattern_alone(text), &[]).answer {
        // 6 and 7 refuse a text that is in the language for what it means.
        DONE | 6 | 7 => Judged::Pattern,
        14 => Judged::Front,
        5 => Judged::Wrong,
        _ => Judged::Unjudged,
    }
}

impl Expected {
    /// What can stand behind the front of a pattern's text. The limits on the length of a text and
    /// on its open parentheses play no part in that: `(` can stand behind eight of them.
    ///
    /// There is none where no pattern begins with the front, and where the library cannot be asked:
    /// the front has more than 256 bytes or more than 8 parentheses open somewhere, or it has 256
    /// bytes and none of its bytes but the first is a parenthesis that is still open.
    ///
    /// The library judges the front with each of the 256 bytes behind it: 30 microseconds for short
    /// fronts and half a millisecond for the longest, as measured. It is meant for messages.
    pub fn behind(front: &[u8]) -> Option<Expected> {
        let end = match judge(front) {
            Judged::Pattern => true,
            Judged::Front => false,
            Judged::Wrong | Judged::Unjudged => return None,
        };
        let mut expected = Expected { bytes: [0; 2], end };
        let mut text = innermost(front).to_vec();
        for byte in 0..=u8::MAX {
            text.push(byte);
            match judge(&text) {
                Judged::Pattern | Judged::Front => expected.insert(byte),
                Judged::Wrong => {}
                Judged::Unjudged => return None,
            }
            text.pop();
        }
        Some(expected)
    }

    /// The bytes that can stand there, in order.
    pub fn bytes(&self) -> impl Iterator<Item = u8> + '_ {
        (0..=u8::MAX).filter(|byte| self.contains(*byte))
    }

    /// Whether this byte can stand there.
    pub fn contains(&self, byte: u8) -> bool {
        let [low, high] = self.bytes;
        let half = if byte.is_ascii() { low } else { high };
        half & bit(byte) != 0
    }

    /// Whether the text can end there.
    pub fn end(&self) -> bool {
        self.end
    }

    fn insert(&mut self, byte: u8) {
        let [low, high] = &mut self.bytes;
        let half = if byte.is_ascii() { low } else { high };
        *half |= bit(byte);
    }

    /// The bytes of a range in words, a run of three or more as one: `a digit 3 to 9`.
    fn runs(&self, range: std::ops::RangeInclusive<u8>, one_of: &str) -> Vec<String> {
        let mut words = Vec::new();
        let mut run: Vec<u8> = Vec::new();
        // With the byte behind the range the last run ends too.
        for byte in range.clone().chain([u8::MAX]) {
            if range.contains(&byte) && self.contains(byte) {
                run.push(byte);
                continue;
            }
            match run[..] {
                [first, _, .., last] => {
                    words.push(format!(
                        "{one_of} {} to {}",
                        char::from(first),
                        char::from(last)
                    ));
                }
                _ => words.extend(run.iter().map(|byte| in_words(*byte))),
            }
            run.clear();
        }
        words
    }
}

/// A byte's bit in its half.
fn bit(byte: u8) -> u128 {
    1_u128.wrapping_shl(u32::from(byte))
}

/// The front from the last parenthesis on that is open at its end; all of it if none is.
///
/// What can stand behind a front that some pattern begins with is the same with what stands before
/// that parenthesis and without: up to its closing one the text is a group, which can stand alone,
/// and any group can stand in the place of another. So eight open parentheses become one.
fn innermost(front: &[u8]) -> &[u8] {
    let mut closed: usize = 0;
    for (at, byte) in front.iter().enumerate().rev() {
        match byte {
            b')' => closed = closed.saturating_add(1),
            b'(' if closed == 0 => return front.get(at..).unwrap_or(front),
            b'(' => closed = closed.saturating_sub(1),
            _ => {}
        }
    }
    front
}

/// One byte in words.
fn in_words(byte: u8) -> String {
    match byte {
        b' ' => String::from("a space"),
        b'!'..=b'~' => format!("`{}`", char::from(byte)),
        _ => format!("the byte 0x{byte:02X}"),
    }
}

impl fmt::Display for Expected {
    /// Letters and digits first, then signs, a space, and the end.
    fn fmt(&self, f: &mut fmt::Formatter<'_>) -> fmt::Result {
        let mut words = self.runs(b'A'..=b'Z', "a letter");
        words.extend(self.runs(b'0'..=b'9', "a digit"));
        let told = |byte: &u8| byte.is_ascii_uppercase() || byte.is_ascii_digit() || *byte == b' ';
        words.extend(self.bytes().filter(|byte| !told(byte)).map(in_words));
        words.extend(self.contains(b' ').then(|| in_words(b' ')));
        words.extend(self.end.then(|| String::from("the end")));
        match words.split_last() {
            None => f.write_str("nothing"),
            Some((last, [])) => f.write_str(last),
            Some((last, before)) => write!(f, "{} or {last}", before.join(", ")),
        }
    }
}

#[cfg(test)]
mod tests {
    use super::*;

    fn bytes(front: &str) -> Vec<u8> {
        let expected = Expected::behind(front.as_bytes()).unwrap();
        expected.bytes().collect()
    }

    /// All fronts of a few bytes: leaving out what stands before the last open parenthesis changes
    /// nothing, and a text that is wrong is so at its first byte that is not expected.
    #[test]
    fn leaving_out_what_is_closed_changes_nothing() {
        let mut fronts = vec![Vec::new()];
        let mut open = 0;
        for _ in 0..5 {
            let longer = |front: &Vec<u8>| {
                let add = |byte: &u8| [front.clone(), vec![*byte]].concat();
                b"A()|*?{1,} ".iter().map(add).collect::<Vec<_>>()
            };
            fronts = fronts.iter().flat_map(longer).collect();
            fronts.retain(|front| !matches!(judge(front), Judged::Wrong));
            for front in &fronts {
                let expected = Expected::behind(front).unwrap();
                open += usize::from(innermost(front) != front);
                for byte in 0..=u8::MAX {
                    let wrong = judge(&[&front[..], &[byte]].concat());
                    let wrong = matches!(wrong, Judged::Wrong);
                    assert_eq!(expected.contains(byte), !wrong, "{front:?} {byte}");
                }
                let pattern = matches!(judge(front), Judged::Pattern);
                assert_eq!(expected.end(), pattern, "{front:?}");
            }
        }
        assert!(fronts.len() > 1000 && open > 500, "{} {open}", fronts.len());
    }

    #[test]
    fn limits_play_no_part() {
        // The ninth parenthesis is refused for another reason than the text.
        assert!(bytes("((((((((").contains(&b'('));
        assert_eq!(bytes("(((((((A|("), bytes("("));
        assert_eq!(Expected::behind(b"((((((((("), None);
        let long = "A ".repeat(127) + "A|";
        assert_eq!(bytes(&long[1..]), bytes(""));
        assert_eq!(Expected::behind(long.as_bytes()), None);
        assert_eq!(bytes(&long.replacen("A A", "A (", 1)), bytes("(A |"));
        assert_eq!(Expected::behind(b"AB"), None);
        // Refused, but not for their text: 6 and 7.
        let behind_a_star = Expected::behind(b"A*");
        assert!(behind_a_star.is_some_and(|expected| expected.end()));
        assert_eq!(Expected::behind(b"(A*)*"), behind_a_star);
        assert_eq!(Expected::behind(b"(A{99}){99}"), behind_a_star);
    }

    #[test]
    fn words_of_sets() {
        let of = |bytes: &[u8], end: bool| {
            let mut expected = Expected { bytes: [0; 2], end };
            bytes.iter().for_each(|byte| expected.insert(*byte));
            assert_eq!(expected.bytes().collect::<Vec<u8>>(), bytes);
            expected.to_string()
        };
        assert_eq!(of(b"", false), "nothing");
        assert_eq!(of(b"", true), "the end");
        assert_eq!(of(b"*", false), "`*`");
        assert_eq!(of(b"*+", true), "`*`, `+` or the end");
        assert_eq!(of(b" 89A", true), "`A`, `8`, `9`, a space or the end");
        assert_eq!(
            of(b"0123789ABCXYZ", false),
            "a letter A to C, a letter X to Z, a digit 0 to 3 or a digit 7 to 9"
        );
        assert_eq!(
            of(&[0, 0x7F, 0x80, 0xFF], false),
            "the byte 0x00, the byte 0x7F, the byte 0x80 or the byte 0xFF"
        );
    }
}
