//! The test of a letter at a row: whether it holds, and how many comparisons were judged, against an
//! evaluation of its own and against what a search finds.

#![allow(clippy::restriction)]

use mireladle::{col, lent, Column, Comparison, Error, Operator, Query, Rows, Tested};

/// A small generator, the same on every machine.
struct Random(u64);

impl Random {
    fn below(&mut self, count: u64) -> u64 {
        self.0 = self
            .0
            .wrapping_mul(6_364_136_223_846_793_005)
            .wrapping_add(1_442_695_040_888_963_407);
        (self.0 >> 33) % count
    }
}

/// A comparison over two columns, and whether it is met at a row.
#[derive(Clone, Copy)]
struct Case {
    left: (u8, i64),
    operator: Operator,
    right: Option<(u8, i64)>,
    number: i32,
}

fn at((column, offset): (u8, i64)) -> Column {
    match offset {
        ..=-1 => col(column).prev(offset.unsigned_abs() as u8),
        _ => col(column).next(offset as u8),
    }
}

impl Case {
    fn new(random: &mut Random) -> Case {
        let operators = [
            Operator::Equal,
            Operator::Unequal,
            Operator::Less,
            Operator::AtMost,
            Operator::Greater,
            Operator::AtLeast,
        ];
        let mut side = || (random.below(2) as u8, random.below(3) as i64 - 1);
        let (left, right) = (side(), side());
        Case {
            left,
            operator: operators[random.below(6) as usize],
            right: (random.below(2) == 0).then_some(right),
            number: random.below(3) as i32 - 1,
        }
    }

    fn comparison(self) -> Comparison {
        match self.right {
            Some(right) => Comparison::new(at(self.left), self.operator, at(right) + self.number),
            None => Comparison::new(at(self.left), self.operator, self.number),
        }
    }

    fn is_met(self, rows: &[i32], row: usize) -> bool {
        let entry = |(column, offset): (u8, i64)| {
            let row = row as i64 + offset;
            let there = (0..rows.len() as i64 / 2).contains(&row);
            there.then(|| i64::from(rows[row as usize * 2 + usize::from(column)]))
        };
        let right = match self.right {
            Some(right) => entry(right),
            None => Some(0),
        };
        let (Some(left), Some(right)) = (entry(self.left), right) else {
            return false;
        };
        let right = right + i64::from(self.number);
        match self.operator {
            Operator::Equal => left == right,
            Operator::Unequal => left != right,
            Operator::Less => left < right,
            Operator::AtMost => left <= right,
            Operator::Greater => left > right,
            Operator::AtLeast => left >= right,
        }
    }
}

#[test]
fn lists_of_comparisons() {
    let mut random = Random(1);
    let (mut held, mut early) = (0, 0);
    for round in 0..2_000 {
        let cases: Vec<Case> = (0..1 + round % 8).map(|_| Case::new(&mut random)).collect();
        let query = Query::builder(2)
            .pattern("A B")
            .define('A', cases.iter().map(|case| case.comparison()))
            .define('C', cases.iter().rev().map(|case| case.comparison()))
            .build()
            .unwrap();
        let rows: Vec<i32> = (0..2 * random.below(6))
            .map(|_| random.below(3) as i32)
            .collect();
        for row in 0..rows.len() / 2 + 3 {
            let tested = |letter| query.test(Rows::new(&rows, 2), letter, row).unwrap();
            let expected = |cases: Vec<&Case>| {
                let unmet = cases.iter().position(|case| !case.is_met(&rows, row));
                Tested {
                    holds: unmet.is_none(),
                    judged: unmet.map_or(cases.len(), |unmet| unmet + 1),
                }
            };
            let of_a = expected(cases.iter().collect());
            assert_eq!(tested('A'), of_a);
            // A letter that the pattern does not have is judged as well.
            assert_eq!(tested('C'), expected(cases.iter().rev().collect()));
            let free = Tested {
                holds: true,
                judged: 0,
            };
            assert_eq!((tested('B'), tested('Z')), (free, free));
            held += usize::from(of_a.holds);
            early += usize::from(of_a.judged < cases.len());
        }
    }
    assert!(held > 300 && early > 500, "{held} {early}");
}

/// With OR or NOT nothing is counted, and the letter holds exactly where a search finds it.
#[test]
fn conditions() {
    let mut random = Random(2);
    let mut held = 0;
    for _ in 0..1_000 {
        let [a, b, c] = [0; 3].map(|_| Case::new(&mut random).comparison());
        let condition = match random.below(3) {
            0 => !(a & b) | c,
            1 => (a | b) & !c,
            _ => !a | b & c,
        };
        let query = Query::builder(2)
            .pattern("A")
            .define('A', [condition])
            .build()
            .unwrap();
        let rows: Vec<i32> = (0..2 * random.below(6))
            .map(|_| random.below(3) as i32)
            .collect();
        let rows = Rows::new(&rows, 2);
        let report = query.search(rows).unwrap();
        let found: Vec<usize> = report.matches().map(|found| found.first_row()).collect();
        for row in 0..rows.len() {
            let holds = found.contains(&row);
            assert_eq!(query.test(rows, 'A', row), Ok(Tested { holds, judged: 0 }));
            held += usize::from(holds);
        }
    }
    assert!(held > 500, "{held}");
}

#[test]
fn what_is_refused_and_what_is_no_letter() {
    let query = Query::builder(2)
        .pattern("A")
        .define('A', [col(0).eq(1), col(1).eq(2)])
        .build()
        .unwrap();
    let rows = [1, 2, 1, 3];
    let columns = Error::ColumnCount { query: 2, rows: 1 };
    assert_eq!(query.test(Rows::new(&rows, 1), 'A', 0), Err(columns));
    let three = Rows::new(&rows[..3], 2);
    assert_eq!(query.test(three, 'A', 0), Err(Error::WrongRows));
    let many = vec![0; 2 * 4097];
    assert_eq!(
        query.test(Rows::new(&many, 2), 'A', 0),
        Err(Error::WrongRows)
    );
    let free = Tested {
        holds: true,
        judged: 0,
    };
    for letter in ['a', '@', '[', '\0', '\u{141}', '\u{10FFFF}'] {
        assert_eq!(query.test(Rows::new(&rows, 2), letter, 1), Ok(free));
    }
    for row in [2, 3, usize::MAX] {
        let behind = Tested {
            holds: false,
            judged: 1,
        };
        assert_eq!(query.test(Rows::new(&rows, 2), 'A', row), Ok(behind));
    }
    // The bytes of a query that is refused, with the offset of its pattern.
    let bytes = query.as_bytes();
    let tested = lent::test(&bytes[..bytes.len() - 1], &rows, b'A', 0);
    assert_eq!((tested.answer, tested.holds, tested.judged), (1, 0, 0));
    let wrong = Query::builder(1).pattern("A**").to_bytes();
    let tested = lent::test(&wrong, &rows, b'A', 0);
    assert_eq!(
        (tested.answer, tested.holds, tested.judged, tested.offset),
        (5, 0, 0, 2)
    );
    for byte in 0..=255_u8 {
        let tested = lent::test(bytes, &rows, byte, 0);
        let expected = if byte == b'A' { 2 } else { 0 };
        assert_eq!(
            (tested.answer, tested.holds, tested.judged),
            (0, 1, expected)
        );
    }
}
