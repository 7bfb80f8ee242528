//! Texts that end too early or go wrong at some byte, for answers 5 and 14 and
//! the offset they return (document 02, R-1): beginnings of good texts with a
//! byte changed, braces of all sorts, and texts at which the limits of depth and
//! length meet the two. Promised is only that the lists are whole as described;
//! what the answer to each text is, `pattern` says. The good texts are random,
//! so rare forms may be missing where few of them are taken.

use super::random::Random;
use super::texts::{self, every_text, Shape};
use crate::query::MOST_TEXT;

/// What a byte is changed to.
pub const CHANGED: &[u8; 21] = b"AB()|{},019?*+^$ a\0\xFF\t";

/// Longer texts are not taken: many of them would be like one another.
const LONGEST: usize = 24;

/// Every beginning of a text, as it is and with each of its bytes changed to each of the list.
pub fn with_a_byte_changed(text: Vec<u8>) -> impl Iterator<Item = Vec<u8>> {
    (0..=text.len()).flat_map(move |length| {
        let beginning = text[..length].to_vec();
        let as_it_is = std::iter::once(beginning.clone());
        as_it_is.chain((0..length).flat_map(move |at| {
            let beginning = beginning.clone();
            CHANGED.iter().map(move |&byte| {
                let mut changed = beginning.clone();
                changed[at] = byte;
                changed
            })
        }))
    })
}

/// A text of the language, one in five with larger bounds, one with repetitions nested in
/// one another.
pub fn good(random: &mut Random) -> Vec<u8> {
    loop {
        let text = match random.below(5) {
            0 => with_large_bounds(random),
            1 => {
                let deep = 2 + random.below(4);
                texts::nested(random, deep)
            }
            _ => texts::accepted(random, 256),
        };
        if text.len() <= LONGEST {
            return text;
        }
    }
}

fn with_large_bounds(random: &mut Random) -> Vec<u8> {
    let shape = Shape {
        bound: random.pick(&[9, 12, 35, 99]),
        endless: true,
        ..texts::shape(random)
    };
    let tree = texts::tree(random, &shape);
    texts::write(random, &tree, 10)
}

/// Those that document 02's reading is told by.
const NAMED: [&[u8]; 8] = [
    b"A{30,2", b"A{3,2", b"A{0,0", b"A{0}", b"A{99,98", b"A{,0", b"A{07", b"A{100",
];

/// The named ones, also with each byte behind them; every `A{` with up to 5 bytes, and with 6 of a
/// smaller alphabet; and every two bounds up to 100, open and closed.
pub fn braces() -> impl Iterator<Item = Vec<u8>> {
    let behind = |text: &'static [u8]| CHANGED.iter().map(move |byte| [text, &[*byte]].concat());
    let named = NAMED
        .into_iter()
        .flat_map(move |text| std::iter::once(text.to_vec()).chain(behind(text)));
    let small =
        every_text(b"01239,}?", 5).chain(every_text(b"0239,}", 6).filter(|it| it.len() == 6));
    let opened = small.map(|held| [b"A{", &held[..]].concat());
    let bounds = (0..=100).flat_map(|low| {
        (0..=100).flat_map(move |high| {
            let open = format!("A{{{low},{high}");
            [format!("{open}}}"), open].map(String::into_bytes)
        })
    });
    named.chain(opened).chain(bounds)
}

/// What stands before the parentheses: nothing, good, wrong or unfinished texts, and ones that are
/// a 6 or a 7 where the whole is in the language.
const FRONTS: [&[u8]; 12] = [
    b"",
    b"A",
    b")",
    b"x",
    b"AB",
    b"A|",
    b"A{0,0}",
    b"A{3,2",
    b"()",
    b"(((A*)*)*)*",
    b"((((A*)*)*)*)*",
    b"(A{99}){99}",
];

/// What stands behind them.
const BACKS: [&[u8]; 12] = [
    b"",
    b"A",
    b"|",
    b"A{",
    b"A{9",
    b"A{30,2",
    b"A{30,2}",
    b"AB",
    b"x",
    b")",
    b"A))))))))",
    b"A)))))))))",
];

/// A front, up to 10 open parentheses and a back, as it is and with spaces before, within or
/// behind it that make it 256 or 257 bytes long. In turn, so that a few of them hold all sorts.
pub fn deep_and_long() -> impl Iterator<Item = Vec<u8>> {
    let parts = FRONTS.into_iter().flat_map(|front| {
        let depths = [0, 1, 7, 8, 9, 10];
        depths.into_iter().flat_map(move |deep| {
            let back =
                move |back: &'static [u8]| [[front, &b"(".repeat(deep)].concat(), back.to_vec()];
            BACKS.into_iter().map(back)
        })
    });
    parts.flat_map(|[front, back]| {
        let short = front.len() + back.len();
        let spaced = [MOST_TEXT, MOST_TEXT + 1].into_iter().flat_map({
            let (front, back) = (front.clone(), back.clone());
            move |length| {
                let spaces = b" ".repeat(length - short);
                [
                    [&spaces[..], &front, &back].concat(),
                    [&front[..], &spaces, &back].concat(),
                    [&front[..], &back, &spaces].concat(),
                ]
            }
        });
        std::iter::once([front, back].concat()).chain(spaced)
    })
}
