//! What it takes to judge a query, by `room`, and to judge and unroll it, by a
//! search over no rows: most of what a short search takes. The pattern's text is
//! what can make it long, so most readings have one of 256 bytes, of the shapes
//! that are hard on some part: many tokens, parentheses, branches, forks, copies of
//! a body that has few places.

use crate::engine;
use crate::workloads::{self, Workload};
use mireladle::lent::{self, Room};
use mireladle::{Query, QueryBuilder};

/// The judgement of an engine.
pub type Judge = fn(query: &[u8], rows: &[i32]) -> Room;

pub struct Reading {
    pub name: &'static str,
    pub about: &'static str,
    pub query: QueryBuilder,
}

const MOST: usize = 256;

/// Name, the text in short, and what it is made of: see `filled`.
const TEXTS: [(&str, &str, [&str; 3]); 12] = [
    (
        "mixed",
        "(A|B C?)+ D{2,3}? ..",
        ["", "(A|B C?)+ D{2,3}? ", "^?"],
    ),
    ("letters", "A B C D ..", ["", "A B C D ", "A"]),
    ("spaces", "255 spaces, then A", ["", " ", "A"]),
    ("branches", "A|A|A..", ["", "A|", "A"]),
    ("options", "A?A?..", ["", "A?", "B"]),
    ("bounds", "A{1,2}A{1,2}..", ["", "A{1,2}", "B"]),
    (
        "deep",
        "A in 8 parentheses ..",
        ["", "((((((((A))))))))", "B"],
    ),
    ("empty", "()()..A", ["", "()", "A"]),
    ("empty-repeated", "(()()..A){99}", ["(", "()", "A){99}"]),
    (
        "empty-in-two",
        "((()()..A){15}){17}",
        ["((", "()", "A){15}){17}"],
    ),
    (
        "empty-branches",
        "((()|()|..A){15}){8}",
        ["((", "()|", "A){15}){8}"],
    ),
    ("outside", "A?A?..AB: answer 5", ["", "A?", "AB"]),
];

pub fn all() -> Vec<Reading> {
    let reading = |name, about, query| Reading { name, about, query };
    let two = workloads::rise_and_fall_query();
    let mut readings = vec![reading("two-defines", "A+ B with two DEFINEs", two)];
    for (name, about, parts) in TEXTS {
        let query = Query::builder(1).pattern(filled(parts));
        readings.push(reading(name, about, query));
    }
    let query = Query::builder(1).pattern(too_many());
    let about = "(((A{,99}..){99}){99}..: answer 7";
    readings.push(reading("too-many", about, query));
    readings
}

/// A text of 256 bytes: `part` as often as there is room between `first` and
/// `last`, then spaces.
fn filled([first, part, last]: [&str; 3]) -> String {
    let times = (MOST - first.len() - last.len()) / part.len();
    let text = format!("{first}{}{last}", part.repeat(times));
    format!("{text:MOST$}")
}

fn too_many() -> String {
    let inner = "A{,99}".repeat(33);
    format!("{}{inner}{}", "(".repeat(8), "){99}".repeat(8))
}

/// The accepted ones as searches over no rows.
pub fn unrolled() -> Vec<Workload> {
    let accepted = all().into_iter().filter(|it| it.query.build().is_ok());
    accepted
        .map(|it| Workload::new(it.name, it.about, it.query, vec![Vec::new()]))
        .collect()
}

/// Whether both engines judge a reading alike; an Err says how not. The yardstick
/// does not tell where a text is wrong, so the offset is left out.
pub fn compare(reading: &Reading) -> Result<(), String> {
    let query = reading.query.to_bytes();
    let yardstick = engine::room(&query, &[]);
    let product = lent::Room {
        offset: yardstick.offset,
        ..lent::room(&query, &[])
    };
    match product == yardstick {
        true => Ok(()),
        false => Err(format!(
            "{}: product {product:?}, yardstick {yardstick:?}",
            reading.name
        )),
    }
}
