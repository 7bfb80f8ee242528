//! The columns that the command line and the query ask for, and how the query's cells are read.

use mireladle::text::cells::{advice, number};
use mireladle::text::{Codes, QueryText};

use crate::arguments::Search;
use crate::failure::Failure;
use crate::shared::layout::{self, find, Reads};

/// The columns of a file, those of the query with their codes.
pub type Layout = layout::Layout<Option<Codes>>;

impl Reads for Option<Codes> {
    fn read(&self, name: &str, cell: &[u8]) -> Result<i32, (String, String)> {
        let codes = self.as_ref();
        number(cell, codes).map_err(|expected| (expected, advice(name, cell, codes)))
    }
}

/// The places of the columns of depots and months in the file, where the matches are counted by them.
pub fn depots(names: &[String], search: &Search) -> Result<Option<[usize; 2]>, Failure> {
    let Some([depot, month]) = &search.depots else {
        return Ok(None);
    };
    let [depot, month] = [depot, month].map(|name| find(names, name, "--depots"));
    Ok(Some([depot?, month?]))
}

/// The columns that the command line and the query ask for.
pub fn layout(names: Vec<String>, text: &QueryText, search: &Search) -> Result<Layout, Failure> {
    let parts = match search.partition_by.is_empty() {
        true => &text.partition_by,
        false => &search.partition_by,
    };
    let mut partition = Vec::new();
    for name in parts {
        partition.push(find(&names, name, "--partition-by")?);
    }
    let order = search.order_by.as_ref().or(text.order_by.as_ref());
    let order = match order {
        Some(name) => Some(find(&names, name, "--order-by")?),
        None if search.sort => {
            let reason = "--sort needs --order-by, the column to sort by";
            return Err(Failure::Usage(String::from(reason)));
        }
        None => None,
    };
    let query = text.columns.iter();
    let query = query.filter_map(|column| Some((column.index?, column.codes.clone())));
    Ok(Layout {
        query: query.collect(),
        partition,
        order,
        names,
    })
}
