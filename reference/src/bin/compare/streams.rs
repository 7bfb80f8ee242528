//! The streams of cases: inputs listed in full, random ones and damaged ones,
//! for the search and for the judgement of room; those of searches within an
//! allowance are made in `within`, those with conditions in `conditions`,
//! tests of a letter in `tested`, logs for the release desk in `desk`, reports derived from
//! one another in `derived`, repetitions of nothing in `nested`, partitions of a table in
//! `depots`. A stream has a usual length, which is that of the gate; the random ones can
//! be run with other seeds and for longer.

use crate::case::{Call, Case};
use crate::{conditions, depots, derived, desk, lots, nested, tested, within};
use reference::generate::damage::damage_twice;
use reference::generate::draft::{
    self, with_column, with_number, Draft, Input, Numbers, Room, LARGE, MIDDLE, SMALL,
};
use reference::generate::scramble::{every_byte, scrambled};
use reference::generate::{averages, beginnings, limits, mix, texts, Random};
use reference::query::SKIP;
use std::collections::HashSet;

pub type Cases = Box<dyn Iterator<Item = Case>>;

pub struct Stream {
    pub name: &'static str,
    pub about: &'static str,
    /// How many cases the gate takes from a random stream; one without this
    /// number is listed and always taken whole.
    pub count: Option<usize>,
    pub cases: fn(u64) -> Cases,
}

const fn listed(name: &'static str, about: &'static str, cases: fn(u64) -> Cases) -> Stream {
    Stream {
        name,
        about,
        count: None,
        cases,
    }
}

const fn random(
    name: &'static str,
    about: &'static str,
    count: usize,
    cases: fn(u64) -> Cases,
) -> Stream {
    Stream {
        name,
        about,
        count: Some(count),
        cases,
    }
}

pub const STREAMS: [Stream; 64] = [
    listed(
        "texts",
        "room: every text of up to 5 bytes over two alphabets",
        every_text,
    ),
    listed(
        "small",
        "every pattern of up to 5 bytes over two alphabets on all rows of 0 and 1, up to 2",
        every_small_input,
    ),
    listed(
        "tables",
        "patterns on every truth table of two letters, up to 4 rows",
        every_table,
    ),
    listed(
        "labelled",
        "skips to first and last A, B, C and D: patterns on every word of labels, up to 4 rows",
        every_word,
    ),
    listed(
        "skips",
        "room, some searches: every two bytes of the skip record, and its wrong lengths",
        every_skip,
    ),
    listed(
        "functions",
        "room, some searches: every function, with letters and columns right and wrong",
        every_function,
    ),
    listed(
        "averaged",
        "averages of every choice of entries from -3 to 3, up to 4 rows",
        every_average,
    ),
    listed(
        "rooms",
        "each of the four buffers at 0, one short, exact and one more, in every combination",
        every_room,
    ),
    listed(
        "limits",
        "all that document 01 limits, at the limit and one beyond",
        at_limits,
    ),
    listed(
        "places",
        "room: P around each power of two up to 2 to the 65",
        around_powers,
    ),
    listed("rows", "room: rows whole and not, up to 4,097", row_counts),
    random(
        "accepted",
        "accepted queries, up to 6 rows",
        60_000,
        accepted,
    ),
    random(
        "extreme",
        "the same with numbers at the ends of 32 bits and their sums",
        40_000,
        extreme,
    ),
    random(
        "averages",
        "sums at and beside multiples of their count, up to 6 rows, some up to 4,096",
        16_000,
        beside_multiples,
    ),
    random("mix", "inputs of all sorts, up to 6 rows", 60_000, mixed),
    random(
        "middle",
        "inputs of all sorts, up to 60 rows",
        12_000,
        middle,
    ),
    random("large", "inputs of all sorts, up to 500 rows", 400, large),
    random(
        "adversarial",
        "patterns that are hard on a careless walk, up to 60 rows",
        8_000,
        adversarial,
    ),
    random(
        "jumping",
        "searches that go on at a labelled row twice or more, up to 60 rows",
        4_000,
        jumping,
    ),
    random(
        "near-256",
        "patterns of 250 to 262 places, up to 22 rows",
        2_000,
        near_limit,
    ),
    random(
        "critical",
        "report rooms that end at and beside each match",
        40_000,
        critical,
    ),
    random(
        "answers",
        "each answer 1 to 15 and each pair of them, from many causes",
        60_000,
        answers,
    ),
    random(
        "scrambled",
        "queries with bytes flipped, cut and moved, and records swapped",
        80_000,
        scrambled_queries,
    ),
    listed(
        "bytes",
        "each byte of some queries at each value",
        every_byte_value,
    ),
    random(
        "judged",
        "room: texts of all sorts, whole and damaged queries",
        80_000,
        judged,
    ),
    random(
        "beginnings",
        "room, some searches: every beginning of good texts, with a byte changed",
        600_000,
        every_beginning,
    ),
    listed(
        "braces",
        "room, some searches: every small text behind `A{`, and every two bounds",
        every_brace,
    ),
    listed(
        "deep-and-long",
        "room and searches: texts wrong or unfinished, 9 deep, or of 256 and 257 bytes",
        deep_and_long,
    ),
    listed(
        "condition-lists",
        "every list of up to 6 entries over the three truths and operators, and long ones",
        conditions::every_condition,
    ),
    listed(
        "condition-records",
        "room, some searches: conditions cut, counted wrong, in every order, each byte at each value",
        conditions::every_record,
    ),
    random(
        "conditions",
        "queries whose letters have conditions, up to 6 rows, some up to 60",
        20_000,
        conditions::random,
    ),
    listed(
        "tested",
        "tests of a letter with every choice of up to 5 truths, and of 8",
        tested::every_truth,
    ),
    listed(
        "tested-letters",
        "tests of every byte as a letter, at rows that are there and not",
        tested::every_byte,
    ),
    random(
        "tests",
        "tests of letters of all sorts at rows of all sorts, up to 60 rows",
        60_000,
        tested::random,
    ),
    listed(
        "logs",
        "the release desk: every log of up to 3 rows, of 4 with fewer sorts, and at limits",
        desk::every_log,
    ),
    random(
        "desk",
        "the release desk: logs that clear and that nearly do, up to some hundred rows",
        40_000,
        desk::random,
    ),
    listed(
        "derived-tables",
        "the report of mode 0 from that of mode 1: patterns on every truth table, up to 4 rows",
        derived::every_table,
    ),
    random(
        "derived",
        "the report of mode 0 from that of mode 1, up to 60 rows, some up to 500",
        20_000,
        derived::random,
    ),
    listed(
        "nested-tables",
        "repetitions of nothing on every truth table of two letters, up to 3 rows",
        nested::every_table,
    ),
    listed(
        "nested-small",
        "every pattern of up to 7 bytes that repeats nothing, on all rows of 0 and 1, up to 2",
        nested::every_small,
    ),
    random(
        "nested",
        "repetitions of nothing, nested in one another, up to 60 rows; some refused",
        16_000,
        nested::random,
    ),
    random(
        "within-nested",
        "allowances at all sorts of points of searches that repeat nothing",
        16_000,
        nested::within_allowances,
    ),
    listed(
        "depots-cells",
        "a table of one partition: every depot and month about the table, and far off",
        depots::every_cell,
    ),
    listed(
        "depots-sequences",
        "tables: every three sorts of partitions, lists of each length, up to the last number",
        depots::every_sequence,
    ),
    random(
        "depots",
        "tables of random partitions, refused and stopped ones among them",
        8_000,
        depots::random,
    ),
    listed(
        "lots-cuttings",
        "lots: every cutting of every truth table of two letters, up to 3 rows",
        lots::every_small,
    ),
    listed(
        "lots-odd",
        "lots: each odd call at each place of every cutting of some tables",
        lots::every_odd_call,
    ),
    listed(
        "lots-within",
        "lots: every allowance of every cutting of some tables",
        lots::within_every_allowance,
    ),
    listed(
        "lots-rooms",
        "lots: short report rooms of every cutting of some tables, with calls after the stop",
        lots::in_every_room,
    ),
    listed(
        "lots-ranks",
        "lots: queries that look ahead and others, with answers before and behind 17",
        lots::ranks,
    ),
    listed(
        "lots-limits",
        "lots: up to 4,096 rows in a few lots, and slices of more",
        lots::at_limits,
    ),
    random(
        "any-feed",
        "feeds that no call wrote, with any buffers: what lies outside stays as it is",
        8_000,
        lots::any_feed,
    ),
    random(
        "lots",
        "lots: random cuttings of inputs of all sorts, with odd calls, up to 8 rows",
        12_000,
        lots::random,
    ),
    random(
        "lots-middle",
        "lots: the same up to 60 rows, some up to 500",
        1_000,
        lots::middle,
    ),
    random(
        "lots-open",
        "lots: attempts that stay open over many rows, up to 60, some up to 200",
        600,
        lots::open,
    ),
    listed(
        "within-small",
        "every allowance of every pattern of up to 4 or 5 bytes on all rows of 0 and 1, up to 2",
        within::every_small_input,
    ),
    listed(
        "within-tables",
        "every allowance of patterns on every truth table of two letters, up to 3 rows",
        within::every_table,
    ),
    listed(
        "within-labelled",
        "every allowance of skips to A, B, C and D on every word of labels, up to 3 rows",
        within::every_word,
    ),
    listed(
        "within-limits",
        "some allowances of all that document 01 limits",
        within::at_limits,
    ),
    random(
        "within",
        "every allowance of inputs of all sorts, up to 6 rows",
        150_000,
        within::mixed,
    ),
    random(
        "within-rooms",
        "allowances at all sorts of points, in report rooms that end at and beside each match",
        100_000,
        within::in_rooms,
    ),
    random(
        "within-jumping",
        "allowances at all sorts of points of searches that go on at a labelled row",
        20_000,
        within::jumping,
    ),
    random(
        "within-middle",
        "allowances at all sorts of points of inputs of all sorts, up to 60 rows",
        20_000,
        within::middle,
    ),
    random(
        "within-large",
        "some allowances of inputs of all sorts, up to 500 rows",
        600,
        within::large,
    ),
];

/// Cases of one call, each with a noise of its own.
pub fn calls(call: Call, seed: u64, inputs: impl Iterator<Item = Input> + 'static) -> Cases {
    let mut random = Random::new(seed ^ 0x6E6F_6973_6500);
    Box::new(inputs.map(move |input| Case {
        call: call.clone(),
        input,
        noise: random.draw(),
    }))
}

pub fn searches(seed: u64, inputs: impl Iterator<Item = Input> + 'static) -> Cases {
    calls(Call::Search, seed, inputs)
}

pub fn rooms(seed: u64, drafts: impl Iterator<Item = Draft> + 'static) -> Cases {
    calls(Call::Room, seed, drafts.map(|draft| to_judge(&draft)))
}

/// Judging room takes query and rows alone.
fn to_judge(draft: &Draft) -> Input {
    draft.with_lengths([0; 4])
}

/// One in so many of the texts below is searched, not judged alone. It has no factor with the
/// sizes of the alphabets that these texts are made of, so that each byte gets its turn.
const SEARCHED: usize = 11;

/// Judges room for texts on two rows, and searches some of them.
fn rooms_and_searches(seed: u64, texts: impl Iterator<Item = Vec<u8>> + 'static) -> Cases {
    let mut random = Random::new(seed);
    Box::new(texts.enumerate().map(move |(number, text)| {
        let draft = Draft::new(1, &text, vec![1, 2]);
        let (call, input) = match number % SEARCHED {
            0 => (Call::Search, draft.finish()),
            _ => (Call::Room, to_judge(&draft)),
        };
        let noise = random.draw();
        Case { call, input, noise }
    }))
}

/// Searches of inputs that are made one by one from a number and a generator.
pub fn made(seed: u64, make: fn(&mut Random, usize) -> Input) -> Cases {
    let mut random = Random::new(seed);
    searches(seed, (0..).map(move |number| make(&mut random, number)))
}

fn every_text(seed: u64) -> Cases {
    let alphabets: [&[u8]; 2] = [b"AB |()*?$", b"A{}120,?+"];
    let texts = alphabets
        .into_iter()
        .flat_map(|alphabet| texts::every_text(alphabet, 5));
    rooms(seed, texts.map(|text| Draft::new(1, &text, vec![1])))
}

fn every_small_input(seed: u64) -> Cases {
    let signs = mix::every_small_input(b"AB |()*?$", 5, 2);
    let bounds = mix::every_small_input(b"AB{}2,?", 6, 2);
    searches(seed, signs.chain(bounds))
}

/// Patterns with letters that hold together, in which the order of ways tells.
pub const TABLED: [&[u8]; 32] = [
    b"A B",
    b"A | A B",
    b"A B | A",
    b"B A | A B",
    b"A* B",
    b"A*? B",
    b"A+ B+",
    b"A+? B+?",
    b"(A | B)+ A",
    b"(A | B)*? B",
    b"(A B?)+",
    b"(A B??)+?",
    b"A? B? A?",
    b"A?? B?? A??",
    b"(A+)+ B",
    b"(A|A)+ B",
    b"A{2} | B{2}",
    b"A{1,2} B{,2}",
    b"A{2,} | B",
    b"(A | B A){2}",
    b"^ A* B $",
    b"A $ | B",
    b"^ B | A",
    b"(^ A | B)+ $",
    b"() | A",
    b"A | ()",
    b"(() | A){,2} B",
    b"(A?){3} B",
    b"(A??){3} B",
    b"(A{,2}){2} $",
    b"((A | B)+ A?)+ B $",
    b"$ | B A",
];

fn every_table(seed: u64) -> Cases {
    searches(seed, mix::every_table(&TABLED, 4))
}

/// Patterns of which A, B, C or none label a match's first row, no row, several, or
/// a later one; of some the matches are empty, and some lack letters.
const WORDS: [&[u8]; 26] = [
    b"(A|B|C)+",
    b"(A|B|C)*",
    b"(A|B|C)+?",
    b"(A|B|C){2}",
    b"(A|B|C){2,3}?",
    b"A+ B",
    b"A B+",
    b"A B* C",
    b"A B C",
    b"A+ B+ C*",
    b"(A B)+ C?",
    b"A (B|C)+",
    b"(A|B)+ C",
    b"A? B",
    b"(A | B A){2}",
    b"() | A B",
    b"A B | ()",
    b"A*",
    b"A*? B?",
    b"^ A B | B C",
    b"A B $ | B",
    b"B{2} | A B{,2}",
    b"(A B? C?)+",
    b"$ | C B",
    b"()",
    b"^?",
];

fn every_word(seed: u64) -> Cases {
    searches(seed, mix::every_word(&WORDS, 4))
}

/// The largest mode that is searched with every letter; there are four modes.
const SEARCHED_MODE: u8 = 4;

fn every_skip(seed: u64) -> Cases {
    let draft = || {
        let rows = vec![1, 1, 2, 1, 2, 2];
        let two = with_number(0, 0, 1, 2);
        Draft::new(1, b"A+ B", rows).define(b'B', &[two])
    };
    let with_skips = move |modes: std::ops::RangeInclusive<u8>| {
        let letters = move |mode| (0..=255).map(move |letter| draft().with_skip(mode, letter));
        modes.flat_map(letters)
    };
    let lengths = [vec![], vec![0], vec![2], vec![0; 3], vec![2, b'A', 0]];
    let wrong = lengths.into_iter().map(move |body| {
        let mut draft = draft();
        if let Some(skip) = draft.body_mut(SKIP) {
            *skip = body;
        }
        draft
    });
    let judged = rooms(seed, with_skips(0..=255).chain(wrong));
    let searched = with_skips(0..=SEARCHED_MODE).map(|draft| draft.finish());
    Box::new(searches(seed, searched).chain(judged))
}

/// The largest function that is searched; there are seven.
const SEARCHED_FUNCTION: u8 = 9;

fn every_function(seed: u64) -> Cases {
    let searched = (0..=SEARCHED_FUNCTION).rev().flat_map(with_function);
    let searched = searches(seed, searched.map(|draft| draft.finish()));
    let judged = rooms(seed, (0..=255).flat_map(with_function));
    Box::new(searched.chain(judged))
}

/// All rows, the pattern's letters, another one and two bytes that are none; both
/// columns, and one beyond them.
fn with_function(function: u8) -> impl Iterator<Item = Draft> {
    let letters = [0, b'A', b'B', b'C', b'@', b'a'].into_iter();
    letters.flat_map(move |letter| {
        (0..3).map(move |column| {
            let rows = vec![1, -3, 2, -4, 1, -4, 2, 5];
            let two = with_number(0, 0, 1, 2);
            let draft = Draft::new(2, b"(A B?)+", rows).define(b'B', &[two]);
            draft.measure(function, letter, column)
        })
    })
}

fn every_average(seed: u64) -> Cases {
    searches(seed, averages::every_small(4))
}

/// Drafts with matches, on which all combinations of rooms are tried.
fn every_room(seed: u64) -> Cases {
    let mut random = Random::new(seed);
    let drafts = (0..150).map(move |_| mix::lively(&mut random, &SMALL));
    let critical = [Room::Nothing, Room::OneShort, Room::Exact, Room::OneMore];
    let inputs = drafts.flat_map(move |draft| {
        let needs = draft.needs();
        (0..256).map(move |number: usize| {
            let length = |buffer: usize| critical[number >> (2 * buffer) & 3].length(needs[buffer]);
            draft.with_lengths([length(0), length(1), length(2), length(3)])
        })
    });
    searches(seed, inputs)
}

fn at_limits(seed: u64) -> Cases {
    let whole = limits::all().into_iter().map(|draft| draft.finish());
    let texts = limits::of_texts().into_iter();
    let in_rooms = texts.flat_map(|draft| draft.with_critical_rooms());
    let judged = rooms(seed, limits::all().into_iter());
    Box::new(searches(seed, whole.chain(in_rooms)).chain(judged))
}

fn around_powers(seed: u64) -> Cases {
    let near = (0..=65).flat_map(|power| {
        let beside = [0, 1, 2, 3, 100, 254, 255, 256, 257, 258, 1000];
        beside.into_iter().flat_map(move |more| {
            [
                (1u128 << power) + more,
                (1u128 << power).saturating_sub(more),
            ]
        })
    });
    let texts = near.filter_map(texts::with_places);
    rooms(seed, texts.map(|text| Draft::new(1, &text, vec![1])))
}

fn row_counts(seed: u64) -> Cases {
    let counts = (1..=8u8).flat_map(|columns| {
        let whole = [0, 1, 2, 63, 64, 4095, 4096, 4097, 5000];
        whole.into_iter().flat_map(move |n| {
            let entries = n * usize::from(columns);
            let beside = [entries.saturating_sub(1), entries, entries + 1];
            beside.map(|entries| Draft::new(columns, b"A+ B", vec![1; entries]))
        })
    });
    rooms(seed, counts)
}

fn accepted(seed: u64) -> Cases {
    made(seed, |random, _| {
        mix::accepted(random, &SMALL, Numbers::Low).finish()
    })
}

fn extreme(seed: u64) -> Cases {
    made(seed, |random, _| {
        mix::accepted(random, &SMALL, Numbers::Extreme).finish()
    })
}

fn beside_multiples(seed: u64) -> Cases {
    made(seed, |random, number| match number % 400 {
        399 => averages::long(random).finish(),
        at if at % 8 == 7 => averages::draft(random, &MIDDLE).finish(),
        _ => averages::draft(random, &SMALL).finish(),
    })
}

fn mixed(seed: u64) -> Cases {
    made(seed, |random, number| mix::input(random, &SMALL, number))
}

fn middle(seed: u64) -> Cases {
    made(seed, |random, number| mix::input(random, &MIDDLE, number))
}

fn large(seed: u64) -> Cases {
    made(seed, |random, number| mix::input(random, &LARGE, number))
}

fn adversarial(seed: u64) -> Cases {
    made(seed, |random, number| match number % 40 {
        0 => Draft::new(1, b"(A?){30} A{30}", vec![1; 25 + random.below(10)]).finish(),
        _ => mix::adversarial(random, &MIDDLE).finish(),
    })
}

fn jumping(seed: u64) -> Cases {
    made(seed, |random, number| match number % 3 {
        0 => mix::jumping(random, &SMALL).finish(),
        _ => mix::jumping(random, &MIDDLE).finish(),
    })
}

fn near_limit(seed: u64) -> Cases {
    made(seed, |random, _| mix::near_limit(random, &MIDDLE).finish())
}

fn critical(seed: u64) -> Cases {
    let mut random = Random::new(seed);
    let drafts = (0..).map(move |_| draft::accepted(&mut random, &SMALL, Numbers::Low));
    searches(seed, drafts.flat_map(|draft| draft.with_critical_rooms()))
}

/// All pairs in turn, the equal ones among them.
fn answers(seed: u64) -> Cases {
    made(seed, |random, number| {
        let answers = [1 + number % 15, 1 + number / 15 % 15].map(|answer| answer as u8);
        loop {
            let mut draft = mix::accepted(random, &SMALL, Numbers::Low);
            if damage_twice(random, &mut draft, answers) {
                return draft.finish();
            }
        }
    })
}

/// The buffers are those of the whole query, at times with a little more.
fn scrambled_queries(seed: u64) -> Cases {
    made(seed, |random, _| {
        let draft = mix::lively(random, &SMALL);
        let mut input = draft.finish();
        input.query = scrambled(random, &input.query);
        input.notes += random.pick(&[0, 0, 1, 8]);
        input.trail += random.pick(&[0, 0, 1, 64]);
        input
    })
}

/// Queries that hold every token of the language, every kind of record and both
/// right sides of a comparison, and numbers whose bytes all differ.
fn every_byte_value(seed: u64) -> Cases {
    let number = 0x0102_0304;
    let rows = vec![number, 1, number + 1, 2, number, 3, 0x0103_0204, 3];
    let texts: [&[u8]; 5] = [
        b"A{12}? | B*",
        b"(A{,9}|B+?) $",
        b"^A{1,23}(())??",
        b" A{2,}  Z",
        b"",
    ];
    let plain = texts.map(|text| Draft::new(2, text, rows.clone()));
    let full = Draft::new(2, b"A+ B", rows)
        .define(b'A', &[with_number(0, 0, 1, number)])
        .define(
            b'B',
            &[
                with_column((0, -1), 4, (1, 1), number),
                with_number(1, 0, 6, 1),
            ],
        )
        .measure(1, b'A', 0)
        .measure(2, b'B', 1);
    let in_modes = [
        full.clone(),
        full.clone().to_next_row(),
        full.clone().to_first(b'B'),
        full.to_last(b'A'),
    ];
    let drafts = plain.into_iter().chain(in_modes);
    let inputs = drafts.flat_map(|draft| {
        let whole = draft.finish();
        every_byte(draft.query()).map(move |query| Input {
            query,
            notes: 160,
            trail: 1_280,
            ..whole.clone()
        })
    });
    searches(seed, inputs)
}

fn judged(seed: u64) -> Cases {
    let mut random = Random::new(seed);
    let drafts = (0..).map(move |number| {
        let text = texts::any(&mut random);
        let mut draft = match number % 4 {
            0 => draft::with_text(&mut random, &SMALL, Numbers::Low, &text, 3),
            1 => draft::with_text(&mut random, &MIDDLE, Numbers::Low, &text, 9),
            _ => mix::accepted(&mut random, &MIDDLE, Numbers::Extreme),
        };
        if number % 4 == 3 {
            let answers = [1, 1].map(|low| low + random.below(10) as u8);
            damage_twice(&mut random, &mut draft, answers);
        }
        draft
    });
    rooms(seed, drafts)
}

/// No good text is taken twice.
fn every_beginning(seed: u64) -> Cases {
    let mut random = Random::new(seed);
    let mut taken = HashSet::new();
    let good = (0..)
        .map(move |_| beginnings::good(&mut random))
        .filter(move |text| taken.insert(text.clone()));
    rooms_and_searches(seed, good.flat_map(beginnings::with_a_byte_changed))
}

fn every_brace(seed: u64) -> Cases {
    rooms_and_searches(seed, beginnings::braces())
}

fn deep_and_long(seed: u64) -> Cases {
    let draft = |text: Vec<u8>| Draft::new(1, &text, vec![1, 2]);
    let whole = beginnings::deep_and_long().map(move |text| draft(text).finish());
    let judged = rooms(seed, beginnings::deep_and_long().map(draft));
    Box::new(judged.chain(searches(seed, whole)))
}
