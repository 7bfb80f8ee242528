//! `--explain`: which letters hold at a row, and where each DEFINE stops. Whether a letter holds,
//! and how many of its comparisons were judged, is the library's answer; the comparisons are read
//! off the query's bytes, which are what the library judges, and shown with the values that they
//! compare. A truth that stands beside a comparison is worked out here. Tested in tests/explain.rs.

use mireladle::text::as_written;
use mireladle::text::screen::{visible, width};
use mireladle::{Query, Rows, Tested};

use crate::columns::Layout;

/// Kinds of records.
const PATTERN: u16 = 2;
const LIST: u16 = 3;
const POSTFIX: u16 = 6;

const COMPARISON_BYTES: usize = 12;

/// What a letter's DEFINE says, as its bytes have it.
struct Define {
    letter: char,
    comparisons: Vec<Comparison>,
    /// The condition as text, where there is an OR or a NOT.
    joined: Option<String>,
}

/// A comparison with its columns by their numbers in the query.
#[derive(Clone, Copy)]
struct Comparison {
    left: At,
    operator: &'static str,
    right: Option<At>,
    number: i32,
}

#[derive(Clone, Copy)]
struct At {
    column: u8,
    offset: i8,
}

/// A row of a partition, and what its columns are called.
pub struct Explained<'a> {
    pub query: &'a Query,
    pub layout: &'a Layout,
    pub rows: Rows<'a>,
    pub row: usize,
}

impl Explained<'_> {
    /// What is told of each letter that the pattern has or that is defined.
    pub fn letters(&self) -> Result<String, mireladle::Error> {
        let mut text = String::new();
        let (pattern, defines) = self.defines();
        let mut letters: Vec<char> = pattern.chars().filter(char::is_ascii_uppercase).collect();
        letters.extend(defines.iter().map(|define| define.letter));
        let mut told: Vec<char> = Vec::new();
        for letter in letters {
            if told.contains(&letter) {
                continue;
            }
            told.push(letter);
            let tested = self.query.test(self.rows, letter, self.row)?;
            let define = defines.iter().find(|define| define.letter == letter);
            text.push_str(&self.letter(letter, tested, define));
            if !pattern.contains(letter) {
                text.push_str("    (the pattern has no such letter)\n");
            }
        }
        Ok(text)
    }

    fn letter(&self, letter: char, tested: Tested, define: Option<&Define>) -> String {
        let holds = match tested.holds {
            true => "holds",
            false => "does not hold",
        };
        let Some(define) = define else {
            return format!("{letter} {holds}, as at every row\n");
        };
        let all = define.comparisons.len();
        let (head, shown) = match &define.joined {
            Some(joined) => (format!(":\n    {}", visible(joined)), all),
            None => {
                let judged = tested.judged;
                let comparisons = if all == 1 {
                    "comparison"
                } else {
                    "comparisons"
                };
                (format!(", {judged} of {all} {comparisons} judged:"), judged)
            }
        };
        let lines: Vec<[String; 3]> = define
            .comparisons
            .iter()
            .take(shown)
            .map(|comparison| self.line(comparison))
            .collect();
        let widest = |column: usize| {
            let cells = lines.iter().filter_map(|line| line.get(column));
            cells.map(|cell| width(cell)).max().unwrap_or(0)
        };
        let (first, second) = (widest(0), widest(1));
        let mut text = format!("{letter} {holds}{head}\n");
        for [comparison, truth, values] in &lines {
            let gap = first.saturating_sub(width(comparison));
            let line = format!("{comparison}{:gap$}  {truth:second$}  {values}", "");
            text.push_str(&format!("    {}\n", line.trim_end()));
        }
        text
    }

    /// A comparison, what it comes to, and the values that are compared.
    fn line(&self, comparison: &Comparison) -> [String; 3] {
        let text = visible(&self.written(comparison));
        let left = self.entry(comparison.left);
        let right = match comparison.right {
            None => Ok(0),
            Some(at) => self.entry(at),
        };
        let (left, right) = match (left, right) {
            (Ok(left), Ok(right)) => (left, right.saturating_add(i64::from(comparison.number))),
            (Err(row), _) | (_, Err(row)) => {
                let missing = format!("row {row} is not there");
                return [text, String::from("unknown"), missing];
            }
        };
        let met = match comparison.operator {
            "=" => left == right,
            "<>" => left != right,
            "<" => left < right,
            "<=" => left <= right,
            ">" => left > right,
            _ => left >= right,
        };
        let column = comparison.left.column;
        let of_right = comparison.right.map_or(column, |at| at.column);
        let values = format!(
            "{} {} {}",
            self.value(column, left),
            comparison.operator,
            self.value(of_right, right)
        );
        [text, met.to_string(), visible(&values)]
    }

    /// An entry, or the number of the row that is not there.
    fn entry(&self, at: At) -> Result<i64, i64> {
        let row = i64::try_from(self.row).unwrap_or(i64::MAX);
        let row = row.saturating_add(i64::from(at.offset));
        let there = usize::try_from(row).ok().and_then(|row| self.rows.get(row));
        let entry = there.and_then(|entries| entries.get(usize::from(at.column)));
        entry.map(|entry| i64::from(*entry)).ok_or(row)
    }

    /// A value as the query writes it: a text that has this code in the column's table, or a
    /// number.
    fn value(&self, column: u8, value: i64) -> String {
        let codes = self.layout.query.get(usize::from(column));
        let codes = codes.and_then(|(_, codes)| codes.as_ref());
        let mut texts = codes.into_iter().flat_map(|codes| codes.texts());
        match texts.find(|(_, code)| i64::from(*code) == value) {
            Some((text, _)) => format!("'{}'", text.replace('\'', "''")),
            None => value.to_string(),
        }
    }

    /// A comparison as the query writes it.
    fn written(&self, comparison: &Comparison) -> String {
        let Comparison {
            left,
            operator,
            right,
            number,
        } = comparison;
        let right = match (right, number) {
            (None, number) => self.value(left.column, i64::from(*number)),
            (Some(at), 0) => self.column(*at),
            (Some(at), ..=-1) => format!("{} - {}", self.column(*at), number.unsigned_abs()),
            (Some(at), _) => format!("{} + {number}", self.column(*at)),
        };
        format!("{} {operator} {right}", self.column(*left))
    }

    fn column(&self, at: At) -> String {
        let column = self.layout.query.get(usize::from(at.column));
        let name = column.and_then(|(index, _)| self.layout.names.get(*index));
        let name = name.map_or(format!("c{}", at.column), |name| as_written(name));
        match at.offset {
            0 => name,
            -1 => format!("PREV({name})"),
            1 => format!("NEXT({name})"),
            ..=-2 => format!("PREV({name}, {})", at.offset.unsigned_abs()),
            _ => format!("NEXT({name}, {})", at.offset),
        }
    }

    /// The pattern's text and the DEFINEs of the query, in their order.
    fn defines(&self) -> (String, Vec<Define>) {
        let (mut pattern, mut defines) = (String::new(), Vec::new());
        for (kind, body) in records(self.query.as_bytes()) {
            match (kind, body) {
                (PATTERN, text) => pattern = String::from_utf8_lossy(text).into_owned(),
                (LIST, [letter, _, list @ ..]) => defines.push(Define {
                    letter: char::from(*letter),
                    comparisons: list
                        .chunks_exact(COMPARISON_BYTES)
                        .filter_map(compared)
                        .collect(),
                    joined: None,
                }),
                (POSTFIX, [letter, _, list @ ..]) => {
                    let (comparisons, joined) = self.joined(list);
                    defines.push(Define {
                        letter: char::from(*letter),
                        comparisons,
                        joined: Some(joined),
                    });
                }
                _ => {}
            }
        }
        (pattern, defines)
    }

    /// The comparisons of a postfix list, and the condition with its joins between them.
    fn joined(&self, list: &[u8]) -> (Vec<Comparison>, String) {
        let (mut comparisons, mut waiting): (Vec<Comparison>, Vec<Joined>) = Default::default();
        let mut left = list;
        while let [kind, behind @ ..] = left {
            left = behind;
            let joined = match kind {
                0 => {
                    let Some(bytes) = behind.get(..COMPARISON_BYTES) else {
                        break;
                    };
                    left = behind.get(COMPARISON_BYTES..).unwrap_or(&[]);
                    let Some(comparison) = compared(bytes) else {
                        break;
                    };
                    comparisons.push(comparison);
                    Joined {
                        text: self.written(&comparison),
                        binds: Binds::Comparison,
                    }
                }
                1 => Joined::two(&mut waiting, Binds::And, "AND"),
                2 => Joined::two(&mut waiting, Binds::Or, "OR"),
                _ => Joined {
                    text: format!("NOT {}", Joined::last(&mut waiting, Binds::Not)),
                    binds: Binds::Not,
                },
            };
            waiting.push(joined);
        }
        (comparisons, Joined::last(&mut waiting, Binds::Or))
    }
}

/// How close a part of a condition holds together, the loosest first.
#[derive(Clone, Copy, PartialEq, Eq, PartialOrd, Ord)]
enum Binds {
    Or,
    And,
    Not,
    Comparison,
}

/// A part of a condition as text.
struct Joined {
    text: String,
    binds: Binds,
}

impl Joined {
    /// Takes the last part that waits, in parentheses where it would fall apart.
    fn last(waiting: &mut Vec<Joined>, binds: Binds) -> String {
        match waiting.pop() {
            Some(part) if part.binds < binds => format!("({})", part.text),
            Some(part) => part.text,
            None => String::new(),
        }
    }

    fn two(waiting: &mut Vec<Joined>, binds: Binds, join: &str) -> Joined {
        let right = Joined::last(waiting, binds);
        let left = Joined::last(waiting, binds);
        Joined {
            text: format!("{left} {join} {right}"),
            binds,
        }
    }
}

/// The kinds and bodies of a query's records.
fn records(query: &[u8]) -> impl Iterator<Item = (u16, &[u8])> {
    let mut left = query;
    std::iter::from_fn(move || {
        let [l0, l1, k0, k1, behind @ ..] = left else {
            return None;
        };
        let length = usize::from(u16::from_le_bytes([*l0, *l1]));
        let body = behind.get(..length)?;
        left = behind.get(length..)?;
        Some((u16::from_le_bytes([*k0, *k1]), body))
    })
}

/// A comparison from its bytes.
fn compared(bytes: &[u8]) -> Option<Comparison> {
    const OPERATORS: [&str; 6] = ["=", "<>", "<", "<=", ">", ">="];
    let &[left, offset, operator, kind, right, right_offset, _, _, n0, n1, n2, n3] = bytes else {
        return None;
    };
    let at = |column: u8, offset: u8| At {
        column,
        offset: i8::from_le_bytes([offset]),
    };
    let operator = OPERATORS.get(usize::from(operator.checked_sub(1)?))?;
    Some(Comparison {
        left: at(left, offset),
        operator,
        right: (kind == 1).then(|| at(right, right_offset)),
        number: i32::from_le_bytes([n0, n1, n2, n3]),
    })
}
