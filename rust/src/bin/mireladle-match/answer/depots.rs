//! The depot-by-month table: every partition is searched and counted by the library, and the table
//! is told once at the end, to be read, as JSON or as CSV, and drawn where that is asked for. What is
//! refused or stopped is named wherever the table is. Tested in tests/depots.rs.

mod heat_map;

use std::collections::BTreeMap;

use mireladle::text::QueryText;
use mireladle::{Depots, Ending, Error, Listed, Query, Rows, MONTHS, MOST_DEPOTS};

use super::Answering;
use crate::arguments::Answer;
use crate::partitions::{Partition, MOST_ROWS};
use crate::shared::csv::Line;
use crate::shared::json::{string, value};
use crate::shared::table::{counted, shown_name, write_table};
use crate::terminal::{grouped, tell, Style};

/// The months as they are shown.
const NAMES: [&str; 12] = [
    "Jan", "Feb", "Mar", "Apr", "May", "Jun", "Jul", "Aug", "Sep", "Oct", "Nov", "Dec",
];
/// What belongs into the cell outside.
const OUTSIDE: &str = "depot not 0 to 63, or month not 1 to 12";

/// The table that is being counted.
pub struct Counting {
    table: Depots,
    /// What the depots are called, by the codes of their column.
    names: BTreeMap<u8, String>,
    /// The head of the depots: the name of their column.
    title: String,
    /// The values of the columns that part the rows, for each partition in the list.
    listed: Vec<Vec<Vec<u8>>>,
    /// Partitions that got no number.
    beyond: u64,
}

/// What a partition adds to the whole answer.
pub struct Taken {
    pub matches: u64,
    pub refused: bool,
    pub stopped: bool,
}

impl Counting {
    /// A table by the depots and months in these columns of the file, which the query has.
    pub fn new(text: &QueryText, [depot, month]: [usize; 2]) -> Counting {
        let column = |index| {
            let mut columns = (0..).zip(&text.columns);
            columns.find(|(_, column)| column.index == Some(index))
        };
        let number = |index| column(index).map_or(u8::MAX, |(number, _)| number);
        let mut names = BTreeMap::new();
        let of_depots = column(depot).map(|(_, column)| column);
        for (name, code) in of_depots
            .iter()
            .flat_map(|it| &it.codes)
            .flat_map(|it| it.texts())
        {
            if let Some(depot) = u8::try_from(code).ok().filter(|it| *it < MOST_DEPOTS) {
                names.entry(depot).or_insert_with(|| String::from(name));
            }
        }
        Counting {
            table: Depots::new(number(depot), number(month)),
            names,
            title: of_depots.map_or(String::new(), |column| column.name.clone()),
            listed: Vec::new(),
            beyond: 0,
        }
    }

    /// Has a partition searched and counted. An error is no answer of a partition: the library is of
    /// another version.
    pub fn take(
        &mut self,
        query: &Query,
        partition: &Partition,
        columns: u8,
    ) -> Result<Taken, Error> {
        // Of more rows than a search takes none is kept: the library refuses them by their number.
        let too_many = match partition.count > MOST_ROWS {
            true => vec![0; 4097_usize.saturating_mul(usize::from(columns))],
            false => Vec::new(),
        };
        let entries = match too_many.is_empty() {
            true => &partition.entries,
            false => &too_many,
        };
        let taken = self.table.partition(query, Rows::new(entries, columns));
        let done = matches!(taken, Ok(taken) if taken.ending == Ending::Done);
        let listed = self.table.listed().len();
        if listed > self.listed.len() {
            self.listed.push(partition.values.clone());
        }
        match taken {
            Ok(taken) => Ok(Taken {
                matches: if done { taken.matches } else { 0 },
                refused: false,
                stopped: !done,
            }),
            Err(error @ (Error::ColumnCount { .. } | Error::OtherLibrary { .. })) => Err(error),
            Err(error) => {
                if error == Error::NoNumber {
                    self.beyond = self.beyond.saturating_add(1);
                }
                Ok(Taken {
                    matches: 0,
                    refused: true,
                    stopped: false,
                })
            }
        }
    }

    /// The depots that are told: those that have a name or a match.
    fn depots(&self) -> impl Iterator<Item = (u8, &[u64])> {
        (0..MOST_DEPOTS).filter_map(|depot| {
            let months = self.table.months(depot)?;
            let told = self.names.contains_key(&depot) || months.iter().any(|count| *count > 0);
            told.then_some((depot, months))
        })
    }

    /// A depot by its name, or by its number where it has none.
    fn label(&self, depot: u8) -> String {
        match self.names.get(&depot) {
            Some(name) => shown_name(name),
            None => depot.to_string(),
        }
    }

    /// The partitions in the list, with what they are called.
    fn listed<'a>(
        &'a self,
        answering: &'a Answering<'_>,
    ) -> impl Iterator<Item = (Listed, String)> + 'a {
        let named = self.table.listed().zip(&self.listed);
        named.map(|(listed, values)| (listed, answering.named_by(values)))
    }

    /// What is said of partitions that got no number; nothing where all got one.
    fn without_number(&self) -> Option<String> {
        let partitions = counted(self.beyond, "", "1 partition", "partitions");
        (self.beyond > 0).then(|| {
            format!("{partitions} behind the 65,535th: answer 20, neither searched nor counted")
        })
    }

    /// How many matches are counted, in how many partitions.
    fn summary(&self) -> String {
        let matches = counted(self.table.matches(), "no match", "1 match", "matches");
        let listed = u64::try_from(self.listed.len()).unwrap_or(u64::MAX);
        let partitions = self.table.partitions();
        let done = partitions.saturating_sub(listed);
        let all = counted(partitions, "no partition", "1 partition", "partitions");
        match listed {
            0 => format!("{matches} in {all}"),
            _ => format!("{matches} in {done} of {all}"),
        }
    }

    /// The table as the answer is told.
    pub fn told(&self, answering: &Answering<'_>) -> Vec<u8> {
        if let Some(reason) = self.without_number() {
            tell(&reason);
        }
        match answering.search.answer {
            Answer::Json => self.json(answering),
            Answer::Csv => {
                for (listed, name) in self.listed(answering) {
                    let (number, why) = (listed.partition, reason(listed.answer));
                    tell(&format!("not counted: partition {number}, {name}: {why}"));
                }
                self.csv(answering.style)
            }
            _ => self.table(answering).into_bytes(),
        }
    }

    fn table(&self, answering: &Answering<'_>) -> String {
        let mut text = String::new();
        let sums: Vec<String> = self.depots().map(|(_, months)| sum(months)).collect();
        let width = sums.iter().map(String::len).max().unwrap_or(0).max(3);
        let mut lines = vec![vec![shown_name(&self.title)]];
        lines.extend(self.depots().map(|(depot, _)| vec![self.label(depot)]));
        let cells = self.depots().map(|(_, months)| months);
        let cells = cells.map(|months| months.iter().map(u64::to_string).collect::<Vec<_>>());
        let cells = std::iter::once(NAMES.map(String::from).to_vec()).chain(cells);
        let sums = std::iter::once(String::from("all")).chain(sums);
        for (line, (cells, sum)) in lines.iter_mut().zip(cells.zip(sums)) {
            line.extend(cells);
            line.push(format!("{sum:>width$}"));
        }
        write_table(&mut text, &lines, answering.style, Style::found);
        let outside = counted(self.table.outside(), "no match", "1 match", "matches");
        text.push_str(&format!("\noutside: {outside} ({OUTSIDE})\n"));
        text.push_str(&format!("{}\n", self.summary()));
        let mut lines = vec![["number", "partition", "answer", ""]
            .map(String::from)
            .to_vec()];
        for (listed, name) in self.listed(answering) {
            let (number, answer) = (listed.partition.to_string(), listed.answer.to_string());
            lines.push(vec![number, name, answer, reason(listed.answer)]);
        }
        if lines.len() > 1 {
            text.push_str("\nnot counted, since refused or stopped:\n");
            write_table(&mut text, &lines, answering.style, |_, cell| {
                String::from(cell)
            });
        }
        text
    }

    /// One record a depot, and one for the cell outside, whose count stands in the last column.
    fn csv(&self, style: Style) -> Vec<u8> {
        let mut head = Line::new(style);
        head.text(b"depot");
        head.text(b"name");
        (1..=MONTHS).for_each(|month| head.number(month));
        head.text(b"all");
        let mut bytes = head.ended();
        for (depot, months) in self.depots() {
            let mut line = Line::new(style);
            line.number(depot);
            line.text(self.names.get(&depot).map_or(b"", |name| name.as_bytes()));
            months.iter().for_each(|count| line.number(count));
            line.number(sum(months));
            bytes.append(&mut line.ended());
        }
        let mut line = Line::new(style);
        line.text(b"outside");
        (0..=MONTHS).for_each(|_| line.text(b""));
        line.number(self.table.outside());
        bytes.append(&mut line.ended());
        bytes
    }

    /// One object.
    fn json(&self, answering: &Answering<'_>) -> Vec<u8> {
        let mut text = String::from("{\"depots\":[");
        for (index, (depot, months)) in self.depots().enumerate() {
            let gap = if index == 0 { "" } else { "," };
            text.push_str(&format!("{gap}{{\"depot\":{depot},\"name\":"));
            match self.names.get(&depot) {
                Some(name) => string(&mut text, name),
                None => text.push_str("null"),
            }
            let months: Vec<String> = months.iter().map(u64::to_string).collect();
            text.push_str(&format!(",\"months\":[{}]}}", months.join(",")));
        }
        text.push_str(&format!(
            "],\"outside\":{},\"matches\":{},\"partitions\":{},\"not_counted\":[",
            self.table.outside(),
            self.table.matches(),
            self.table.partitions()
        ));
        let layout = answering.layout;
        for (index, (listed, values)) in self.table.listed().zip(&self.listed).enumerate() {
            let gap = if index == 0 { "" } else { "," };
            text.push_str(&format!(
                "{gap}{{\"number\":{},\"partition\":{{",
                listed.partition
            ));
            for (index, (column, cell)) in layout.partition.iter().zip(values).enumerate() {
                text.push_str(if index == 0 { "" } else { "," });
                string(&mut text, layout.names.get(*column).map_or("", |name| name));
                text.push(':');
                value(&mut text, cell);
            }
            text.push_str(&format!("}},\"answer\":{}}}", listed.answer));
        }
        text.push_str(&format!("],\"without_number\":{}}}\n", self.beyond));
        text.into_bytes()
    }

    /// The table as a picture.
    pub fn picture(&self, answering: &Answering<'_>) -> String {
        heat_map::HeatMap {
            title: "Matches by depot and month",
            about: self.summary(),
            depots: self
                .depots()
                .map(|(depot, months)| (self.label(depot), months.to_vec()))
                .collect(),
            outside: self.table.outside(),
            not_counted: self
                .listed(answering)
                .map(|(listed, name)| (listed, name))
                .collect(),
            without_number: self.beyond,
        }
        .drawn()
    }
}

fn sum(months: &[u64]) -> String {
    let all = months.iter().fold(0_u64, |sum, it| sum.saturating_add(*it));
    all.to_string()
}

/// Why a partition with this answer is not counted.
fn reason(answer: u32) -> String {
    String::from(match answer {
        13 => "stopped for want of room",
        15 => "stopped since there is no row to skip to behind a match",
        16 => "stopped since no more steps are allowed",
        _ => return format!("refused: {}", Error::from_answer(u64::from(answer), 0)),
    })
}
