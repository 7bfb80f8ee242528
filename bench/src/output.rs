//! The output: one table for each section, with columns for the yardstick, for
//! the product and for their ratio.

use crate::rooms::Sums;
use crate::rounds::Times;
use crate::table::{Side, Table};

/// A workload with what was measured of it.
pub struct Measured {
    pub name: String,
    pub about: String,
    pub rows: usize,
    pub sums: Sums,
    pub yardstick: Times,
    pub product: Times,
}

/// Which columns a section has.
#[derive(Clone, Copy, PartialEq, Eq)]
pub enum Columns {
    Searches,
    Growth,
    Calls,
}

pub fn print(title: &str, columns: Columns, measured: &[Measured], markdown: bool) {
    let mut table = Table::new(&heads(columns));
    for (index, one) in measured.iter().enumerate() {
        let before = index.checked_sub(1).map(|index| &measured[index]);
        table.push(line(columns, one, before));
    }
    let notes = measured.iter().map(|one| (&one.name[..], &one.about[..]));
    print_section(title, &table, notes, markdown);
}

/// A table below its title, and below it what its names stand for.
pub fn print_section<'a>(
    title: &str,
    table: &Table,
    notes: impl Iterator<Item = (&'a str, &'a str)>,
    markdown: bool,
) {
    match markdown {
        true => println!("### {title}\n"),
        false => println!("{title}\n"),
    }
    table.print(markdown);
    for (name, about) in notes {
        let bullet = if markdown { "- " } else { "  " };
        println!("{bullet}{name}: {about}");
    }
    println!();
}

fn heads(columns: Columns) -> Vec<(String, Side)> {
    let counts: &[&str] = match columns {
        Columns::Searches => &["rows", "matches", "steps"],
        Columns::Growth => &["steps", "times"],
        Columns::Calls => &[],
    };
    let of_engine: &[&str] = match columns {
        Columns::Searches => &["ns/step", "median", "ns/row"],
        Columns::Growth => &["µs", "times", "ns/step"],
        Columns::Calls => &["ns/call", "median"],
    };
    let right = |head: &str| (head.to_string(), Side::Right);
    let mut heads = vec![("workload".to_string(), Side::Left)];
    heads.extend(counts.iter().map(|head| right(head)));
    for engine in ["yardstick", "product"] {
        heads.push(right(&format!("{engine} {}", of_engine[0])));
        heads.extend(of_engine[1..].iter().map(|head| right(head)));
    }
    heads.push(right("product/yardstick"));
    heads
}

/// The cells of a workload; `before` is the one in the line above. Times are the
/// minimum over the rounds where no median is named, and so is the ratio.
fn line(columns: Columns, one: &Measured, before: Option<&Measured>) -> Vec<String> {
    let mut line = vec![one.name.clone()];
    let steps = one.sums.steps;
    match columns {
        Columns::Searches => {
            let counts = [one.rows as u64, one.sums.matches, steps];
            line.extend(counts.map(|count| count.to_string()));
        }
        Columns::Growth => {
            let before = before.map(|before| before.sums.steps as f64);
            line.extend([steps.to_string(), growth(steps as f64, before)]);
        }
        Columns::Calls => {}
    }
    let before_yardstick = before.map(|before| before.yardstick);
    line.extend(cells(columns, one, one.yardstick, before_yardstick));
    let before_product = before.map(|before| before.product);
    line.extend(cells(columns, one, one.product, before_product));
    let ratio = one.product.minimum / one.yardstick.minimum;
    line.push(format!("{ratio:.2}"));
    line
}

fn cells(columns: Columns, one: &Measured, times: Times, before: Option<Times>) -> Vec<String> {
    let Times { minimum, median } = times;
    let steps = one.sums.steps as f64;
    let rows = one.rows as f64;
    match columns {
        Columns::Searches => vec![
            format!("{:.2}", minimum / steps),
            format!("{:.2}", median / steps),
            format!("{:.1}", minimum / rows),
        ],
        Columns::Growth => vec![
            format!("{:.1}", minimum / 1_000.0),
            growth(minimum, before.map(|before| before.minimum)),
            format!("{:.2}", minimum / steps),
        ],
        Columns::Calls => vec![format!("{minimum:.0}"), format!("{median:.0}")],
    }
}

/// How many times the value of the line above.
fn growth(value: f64, before: Option<f64>) -> String {
    before.map_or(String::new(), |before| format!("{:.2}", value / before))
}
