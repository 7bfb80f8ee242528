//! Cells of a log as numbers. It promises that a cell is one of the three events only where it is
//! written as one: every other cell of that column, also a date, a number beyond 32 bits or nothing,
//! is another event, which makes the log unreadable. Base and patch numbers are whole numbers.

use mireladle::text::screen::shown;

use crate::arguments::{Judge, COLUMNS};
use crate::failure::Failure;
use crate::shared::layout::{find, Layout, Reads};

/// How events are written.
pub struct Events {
    texts: Vec<(String, i32)>,
}

/// What stands for every other event.
const OTHER: i32 = 0;

impl Default for Events {
    /// By their numbers, and by the words for them.
    fn default() -> Events {
        let texts = [("offered", 1), ("refused", 2), ("accepted", 3)];
        let numbers = [("1", 1), ("2", 2), ("3", 3)];
        let all = numbers.into_iter().chain(texts);
        Events::named(
            all.map(|(text, event)| (String::from(text), event))
                .collect(),
        )
    }
}

impl Events {
    /// By these texts and no others.
    pub fn named(texts: Vec<(String, i32)>) -> Events {
        Events { texts }
    }

    fn event(&self, cell: &[u8]) -> i32 {
        let mut texts = self.texts.iter();
        let found = texts.find(|(text, _)| text.as_bytes() == cell);
        found.map_or(OTHER, |(_, event)| *event)
    }
}

/// How a column of a log is read.
pub enum Cells {
    /// The time orders the rows, and the desk does not look at it: any number stands for it.
    Time,
    Event(Events),
    Number,
}

impl Reads for Cells {
    fn read(&self, _: &str, cell: &[u8]) -> Result<i32, (String, String)> {
        match self {
            Cells::Time => Ok(0),
            Cells::Event(events) => Ok(events.event(cell)),
            Cells::Number => {
                let text = std::str::from_utf8(cell).ok();
                text.and_then(|text| text.parse().ok()).ok_or_else(|| {
                    let expected = "a whole number from -2147483648 to 2147483647";
                    (String::from(expected), String::new())
                })
            }
        }
    }
}

/// The columns of a log.
pub fn layout(names: Vec<String>, judge: &mut Judge) -> Result<Layout<Cells>, Failure> {
    let mut places = [0; 5];
    for ((place, name), option) in places.iter_mut().zip(&judge.columns).zip(COLUMNS) {
        *place = find(&names, name, &format!("--{option}"))?;
    }
    let [bus, time, event, base, patch] = places;
    for (at, place) in places.iter().enumerate() {
        let same = places.iter().take(at).position(|other| other == place);
        if let Some((one, other)) = same.and_then(|one| Some((COLUMNS.get(one)?, COLUMNS.get(at)?)))
        {
            let name = names.get(*place).map_or("", String::as_str);
            let reason = format!("--{one} and --{other} are the same column, {}", shown(name));
            return Err(Failure::Option(reason));
        }
    }
    let events = std::mem::take(&mut judge.events);
    Ok(Layout {
        names,
        query: vec![
            (time, Cells::Time),
            (event, Cells::Event(events)),
            (base, Cells::Number),
            (patch, Cells::Number),
        ],
        partition: vec![bus],
        order: Some(time),
    })
}

#[cfg(test)]
mod tests {
    use super::*;

    #[test]
    fn no_cell_is_an_event_by_mistake() {
        let events = Events::default();
        for (cell, event) in [
            ("1", 1),
            ("2", 2),
            ("3", 3),
            ("offered", 1),
            ("accepted", 3),
        ] {
            assert_eq!(events.event(cell.as_bytes()), event);
        }
        for cell in [
            "",
            "0",
            "4",
            "01",
            "+1",
            "00:00:01",
            "1970-01-01T00:00:03",
            "4294967297",
        ] {
            assert_eq!(events.event(cell.as_bytes()), OTHER, "{cell}");
        }
        for cell in ["Accepted", "accepted.", "1.0", "\u{661}"] {
            assert_eq!(events.event(cell.as_bytes()), OTHER, "{cell}");
        }
        let named = Events::named(vec![(String::from("take"), 3)]);
        assert_eq!(named.event(b"take"), 3);
        for cell in ["1", "3", "accepted"] {
            assert_eq!(named.event(cell.as_bytes()), OTHER, "{cell}");
        }
    }

    #[test]
    fn numbers_are_whole() {
        let read = |cell: &str| Cells::Number.read("", cell.as_bytes()).ok();
        assert_eq!(read("-2147483648"), Some(i32::MIN));
        assert_eq!(read("+2147483647"), Some(i32::MAX));
        assert_eq!(read("007"), Some(7));
        for cell in [
            "",
            "-",
            "2147483648",
            "4294967303",
            "7.0",
            "7a",
            "1e3",
            "2026-03-01",
        ] {
            assert_eq!(read(cell), None, "{cell}");
        }
    }
}
