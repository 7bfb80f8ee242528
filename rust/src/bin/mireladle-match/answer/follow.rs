//! Rows that are followed: each partition has a search that goes on with the rows that come, and the
//! matches that are new are told, a line for each where no other format is asked for. A partition
//! whose search stopped, or that has more rows than a search takes, is told once and not searched
//! on; the others go on. Its weakness: the buffers of every open partition stay. Tested in
//! tests/follow.rs.

use std::collections::HashMap;

use mireladle::{Ending, Error, Feed, Limits, Match, Report, Rows};

use super::{Answering, Searched};
use crate::arguments::Searcher;
use crate::failure::Failure;
use crate::partitions::{Partition, MOST_ROWS};
use crate::shared::table::shown_name;
use crate::terminal::tell;

/// The searches that go on, by the numbers of their partitions.
#[derive(Default)]
pub struct Feeds(HashMap<u64, Followed>);

/// A partition that is followed.
enum Followed {
    Goes(Box<Feed>),
    /// Nothing more is looked for: the search stopped, or there are too many rows.
    Ended,
}

impl<'a> Answering<'a> {
    /// Refuses a query that looks ahead before the first row, where rows are followed.
    pub(super) fn can_follow(self) -> Result<Answering<'a>, Failure> {
        if self.search.follow.is_some() {
            self.new_feed(0).map_err(with_advice)?;
        }
        Ok(self)
    }

    /// A feed for up to so many rows.
    fn new_feed(&self, largest: usize) -> Result<Feed, Failure> {
        let limits = match self.search.by {
            Searcher::Library(limits) => limits,
            Searcher::Program(_) => Limits::default(),
        };
        let query = self.query.as_ref();
        let query = query.ok_or(Error::OtherLibrary { answer: 0 });
        let feed = query.and_then(|query| Feed::new(query, largest, limits));
        feed.map_err(|error| Self::refusal(self.asked, error))
    }

    /// Searches on with a partition's rows that are not taken yet, and tells what is new.
    pub fn search_on(&mut self, partition: &mut Partition) -> Result<Vec<u8>, Failure> {
        let Some(mut feed) = self.feed_of(partition)? else {
            partition.forget_rows();
            return Ok(Vec::new());
        };
        let columns = u8::try_from(self.layout.entries()).unwrap_or(u8::MAX);
        let entries = std::mem::take(&mut partition.entries);
        let report = feed.push(Rows::new(&entries, columns));
        let report = report.map_err(|error| Self::refusal(self.asked, error))?;
        let told = self.tell_new(partition, &report);
        if partition.count > MOST_ROWS && report.ending() == Ending::Waiting {
            self.tally.refused = true;
            tell(&self.too_large(partition, true));
            partition.forget_rows();
        } else if report.ending() == Ending::Waiting {
            let goes = Followed::Goes(feed);
            self.feeds.0.insert(partition.number, goes);
        }
        Ok(told)
    }

    /// Searches a partition whose rows are all there to its end, and tells what is new.
    pub(super) fn search_to_end(&mut self, mut partition: Partition) -> Result<Vec<u8>, Failure> {
        let mut told = self.search_on(&mut partition)?;
        let feed = self.feed_of(&partition)?;
        self.feeds.0.remove(&partition.number);
        let Some(mut feed) = feed else {
            return Ok(told);
        };
        let report = feed.finish();
        let report = report.map_err(|error| Self::refusal(self.asked, error))?;
        told.append(&mut self.tell_new(&partition, &report));
        Ok(told)
    }

    /// Whether no row that is still to come can be searched: there is one partition, and it has
    /// ended.
    pub fn has_ended(&self) -> bool {
        let ended = |followed: &Followed| matches!(followed, Followed::Ended);
        self.layout.partition.is_empty() && self.feeds.0.values().any(ended)
    }

    /// Takes out the feed of a partition, which is a new one at first; none where nothing more is
    /// looked for, which it stays unless the feed is put back.
    fn feed_of(&mut self, partition: &Partition) -> Result<Option<Box<Feed>>, Failure> {
        match self.feeds.0.insert(partition.number, Followed::Ended) {
            Some(Followed::Goes(feed)) => Ok(Some(feed)),
            Some(Followed::Ended) => Ok(None),
            None => {
                let most = usize::try_from(MOST_ROWS).unwrap_or(usize::MAX);
                Ok(Some(Box::new(self.new_feed(most)?)))
            }
        }
    }

    /// Counts and tells the new matches of a partition, and what stopped its search.
    fn tell_new(&mut self, partition: &Partition, report: &Report) -> Vec<u8> {
        let found = u64::try_from(report.len()).unwrap_or(u64::MAX);
        self.tally.matches = self.tally.matches.saturating_add(found);
        let first = report.matches().any(|found| found.number() == 1);
        let with = self.tally.with_matches.saturating_add(u64::from(first));
        self.tally.with_matches = with;
        let searched = Searched {
            partition,
            report,
            rows: partition.lines.len(),
        };
        if !matches!(report.ending(), Ending::Done | Ending::Waiting) {
            self.tally.stopped = true;
            self.tell_stopped(&searched);
        }
        self.tell(&searched)
    }
}

/// A refusal of a query that looks ahead, with what to do.
fn with_advice(failure: Failure) -> Failure {
    match failure {
        Failure::Refused {
            error: error @ Error::LooksAhead { .. },
            place,
        } => {
            let advice = "without --follow it is searched once all rows are there";
            let place = place.map_or(String::new(), |place| format!("{place}\n"));
            Failure::Refused {
                error,
                place: Some(format!("{place}{advice}")),
            }
        }
        other => other,
    }
}

/// The new matches of a partition, a line for each:
/// `bus=B17: match 1, lines 2 to 8, ORRC, refusals=2`.
pub fn lines(answering: &Answering<'_>, searched: &Searched<'_>) -> Vec<u8> {
    let name = match answering.layout.partition.is_empty() {
        true => String::new(),
        false => format!("{}: ", answering.name(searched.partition)),
    };
    let mut text = String::new();
    for found in searched.report {
        text.push_str(&name);
        text.push_str(&line(answering, searched, &found));
        text.push('\n');
    }
    text.into_bytes()
}

fn line(answering: &Answering<'_>, searched: &Searched<'_>, found: &Match<'_>) -> String {
    let first = searched.line(found.first_row());
    let last = searched.line(found.rows().last().unwrap_or(found.first_row()));
    let lines = match first == last {
        true => format!("line {first}"),
        false => format!("lines {first} to {last}"),
    };
    let labels = match found.is_empty() {
        true => "-",
        false => found.labels(),
    };
    let labels = answering.style.found(labels);
    let mut text = format!("match {}, {lines}, {labels}", found.number());
    let titles = answering.asked.text.titles.iter();
    for (title, measure) in titles.zip(found.measures()) {
        let title = shown_name(title);
        let measure = measure.map_or(String::from("null"), |number| number.to_string());
        text.push_str(&format!(", {title}={measure}"));
    }
    text
}
