//! Faults of averages (document 02, R-5): one that cuts in another way, sums or counts
//! other rows, keeps too few bits, tells null for a number or a number for null, reads
//! another function or column, or refuses where it should not, or the other way round.

use super::{change_bodies, ends, reads, Fault, Search};
use reference::pattern;
use reference::query::{self, Function, AVG, COUNT, LAST, MEASURE, SUM};

/// What one average is taken of.
struct Taken {
    /// The entries of the measure's rows, in order.
    entries: Vec<i64>,
    /// Those of all rows of the match in the measure's column.
    of_match: Vec<i64>,
}

impl Taken {
    fn sum(&self) -> i64 {
        self.entries.iter().sum()
    }

    fn count(&self) -> i64 {
        self.entries.len() as i64
    }

    /// Where an average is written: the sum and the count, which is not 0.
    fn parts(&self) -> Option<(i64, i64)> {
        (self.count() > 0).then_some((self.sum(), self.count()))
    }
}

impl Search<'_> {
    /// Writes what the fault makes of them for all averages; None is null.
    fn averages(&mut self, wrong: fn(&Taken) -> Option<i64>) {
        let Some(accepted) = self.accepted.clone() else {
            return;
        };
        let (columns, measures) = (accepted.query.columns, accepted.query.measures);
        let rows = self.before.rows.items().to_vec();
        let labels = self.lent.labels.items().to_vec();
        let mut labelled = 0;
        for one in self.matches() {
            let (first, taken) = (one[1] as usize, one[2] as usize);
            let own = &labels[labelled..labelled + taken];
            labelled += taken;
            for (measure, written) in measures.iter().zip(one[3..].chunks_mut(2)) {
                if measure.function != Function::Avg {
                    continue;
                }
                let entry = |at| i64::from(rows[(first + at) * columns + measure.column]);
                let is_own = |at: &usize| measure.letter.is_none_or(|letter| letter == own[*at]);
                let result = wrong(&Taken {
                    entries: (0..taken).filter(is_own).map(entry).collect(),
                    of_match: (0..taken).map(entry).collect(),
                });
                written[0] = result.is_some().into();
                written[1] = result.unwrap_or(0);
            }
        }
    }
}

/// Changes the bodies of averages: function, letter, column and reserved byte.
fn change_averages(query: &mut Vec<u8>, change: impl Fn(&mut [u8; 4])) {
    change_bodies(query, MEASURE, |body| {
        if let Ok(body @ [AVG, ..]) = <&mut [u8; 4]>::try_from(&mut body[..]) {
            change(body);
        }
    });
}

/// Sum by count to the next lower whole number.
fn down((sum, count): (i64, i64)) -> i64 {
    sum.div_euclid(count)
}

/// By how much the sum is above that many times the count: from 0 to below the count.
fn above((sum, count): (i64, i64)) -> i64 {
    sum.rem_euclid(count)
}

pub static FAULTS: [Fault; 25] = [
    ends("avg-down", "an average is rounded down", |search| {
        search.averages(|taken| taken.parts().map(down))
    }),
    ends("avg-up", "an average is rounded up", |search| {
        search.averages(|taken| {
            let parts = taken.parts()?;
            Some(down(parts) + i64::from(above(parts) > 0))
        })
    }),
    ends(
        "avg-away",
        "an average is rounded away from zero",
        |search| {
            search.averages(|taken| {
                let (sum, count) = taken.parts()?;
                Some((sum + sum.signum() * (count - 1)) / count)
            })
        },
    ),
    ends(
        "avg-nearest",
        "an average is rounded to the nearest, halves away from zero",
        |search| {
            search.averages(|taken| {
                let (sum, count) = taken.parts()?;
                Some((2 * sum + sum.signum() * count) / (2 * count))
            })
        },
    ),
    ends(
        "avg-nearest-low",
        "an average is rounded to the nearest, halves toward zero",
        |search| {
            search.averages(|taken| {
                let (sum, count) = taken.parts()?;
                Some((2 * sum + sum.signum() * (count - 1)) / (2 * count))
            })
        },
    ),
    ends(
        "avg-all-counted",
        "an average of a letter is divided by all rows of the match",
        |search| {
            search.averages(|taken| {
                let (sum, _) = taken.parts()?;
                Some(sum / taken.of_match.len() as i64)
            })
        },
    ),
    ends(
        "avg-all-summed",
        "an average of a letter is that of the sum of all rows of the match",
        |search| {
            search.averages(|taken| {
                let (_, count) = taken.parts()?;
                Some(taken.of_match.iter().sum::<i64>() / count)
            })
        },
    ),
    ends(
        "avg-one-more",
        "an average is divided by one row more where there are several",
        |search| {
            search.averages(|taken| {
                let (sum, count) = taken.parts()?;
                Some(sum / (count + i64::from(count > 1)))
            })
        },
    ),
    ends(
        "avg-zero-null",
        "an average of a sum of 0 is 0 and 0",
        |search| {
            search.averages(|taken| {
                let (sum, count) = taken.parts()?;
                (sum != 0).then(|| sum / count)
            })
        },
    ),
    ends(
        "avg-cut-null",
        "an average that is cut to 0 is 0 and 0",
        |search| {
            search.averages(|taken| {
                let (sum, count) = taken.parts()?;
                (sum == 0 || sum / count != 0).then(|| sum / count)
            })
        },
    ),
    ends("avg-null", "an average of no rows is 1 and 0", |search| {
        search.averages(|taken| {
            let (sum, count) = taken.parts().unwrap_or((0, 1));
            Some(sum / count)
        })
    }),
    ends(
        "avg-wraps",
        "an average's sum keeps 32 bits only",
        |search| {
            search.averages(|taken| {
                let (sum, count) = taken.parts()?;
                Some(i64::from(sum as i32) / count)
            })
        },
    ),
    ends(
        "avg-ends",
        "an average's sum stays within 32 bits",
        |search| {
            search.averages(|taken| {
                let (sum, count) = taken.parts()?;
                Some(sum.clamp(i32::MIN.into(), i32::MAX.into()) / count)
            })
        },
    ),
    ends(
        "avg-unsigned",
        "an average's sum is divided as a number without sign",
        |search| {
            search.averages(|taken| {
                let (sum, count) = taken.parts()?;
                Some((sum as u64 / count as u64) as i64)
            })
        },
    ),
    ends(
        "avg-single",
        "an average is divided in floating point of 32 bits",
        |search| {
            search.averages(|taken| {
                let (sum, count) = taken.parts()?;
                Some((sum as f32 / count as f32) as i64)
            })
        },
    ),
    ends(
        "avg-each",
        "each entry is divided by the count, and the quotients are summed",
        |search| {
            search.averages(|taken| {
                let (_, count) = taken.parts()?;
                Some(taken.entries.iter().map(|entry| entry / count).sum())
            })
        },
    ),
    ends(
        "avg-row-by-row",
        "an average is taken row by row and cut at each",
        |search| {
            search.averages(|taken| {
                taken.parts()?;
                let next = |average: i64, (count, entry): (i64, &i64)| {
                    (average * count + entry) / (count + 1)
                };
                Some((0..).zip(&taken.entries).fold(0, next))
            })
        },
    ),
    reads("avg-as-sum", "AVG is read as SUM", |query, _| {
        change_averages(query, |body| body[0] = SUM);
    }),
    reads("avg-as-last", "AVG is read as LAST", |query, _| {
        change_averages(query, |body| body[0] = LAST);
    }),
    reads("avg-as-count", "AVG is read as COUNT", |query, _| {
        change_averages(query, |body| *body = [COUNT, body[1], 0, body[3]]);
    }),
    reads(
        "avg-letter",
        "the letter of an average is overlooked where the pattern has it",
        |query, _| {
            let letters = letters(query);
            change_averages(query, |body| {
                if letters.contains(&body[1]) {
                    body[1] = 0;
                }
            });
        },
    ),
    reads(
        "avg-stranger",
        "no 9 for the letter of an average",
        |query, _| {
            let letters = letters(query);
            change_averages(query, |body| {
                if body[1].is_ascii_uppercase() && !letters.contains(&body[1]) {
                    body[1] = 0;
                }
            });
        },
    ),
    reads(
        "avg-column",
        "an average of another column than 0 is refused, as for COUNT",
        |query, _| {
            change_averages(query, |body| {
                if body[2] != 0 {
                    body[0] = COUNT;
                }
            });
        },
    ),
    reads("avg-refused", "function 7 is refused", |query, _| {
        change_averages(query, |body| body[0] = AVG + 1);
    }),
    reads("avg-beyond", "function 8 is read as AVG", |query, _| {
        change_bodies(query, MEASURE, |body| {
            if body.first() == Some(&(AVG + 1)) {
                body[0] = AVG;
            }
        });
    }),
];

/// The letters of a query's pattern, where its fields and its text are right.
fn letters(query: &[u8]) -> Vec<u8> {
    let query = query::read(query).ok();
    let tree = query.and_then(|query| pattern::read(&query.text));
    tree.map_or(Vec::new(), |tree| tree.letters().into_iter().collect())
}
