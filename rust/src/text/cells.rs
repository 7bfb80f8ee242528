//! Cells as numbers: whole numbers of 32 bits, dates and times as whole seconds, texts by the codes
//! of their column. And cells as keys to order rows by, which may be larger and have fractions.

use super::codes::{Codes, NUMBER};
use super::fault::cut;
use super::times::{seconds, Seconds};

/// The number that a cell of a query's column is, or what was expected in its place. A number
/// stands for itself also where the column has codes.
///
/// # Errors
///
/// What was expected, in words.
pub fn number(cell: &[u8], codes: Option<&Codes>) -> Result<i32, String> {
    if let Some(number) = whole(cell) {
        return i32::try_from(number).map_err(|_| String::from(NUMBER));
    }
    if let Some(code) = codes.and_then(|codes| codes.code(cell)) {
        return Ok(code);
    }
    match seconds(cell) {
        Some(time) if time.billionths > 0 => Err(String::from(
            "whole seconds, since a search compares whole numbers",
        )),
        Some(time) => i32::try_from(time.whole).map_err(|_| {
            String::from("a date from 1901-12-14 to 2038-01-18, whose seconds fit into 32 bits")
        }),
        None => Err(String::from(NUMBER)),
    }
}

/// What to do about a cell that is no number, behind what was expected.
pub fn advice(name: &str, cell: &[u8], codes: Option<&Codes>) -> String {
    let text = String::from_utf8_lossy(cell);
    let looks_like_text = text.chars().any(char::is_alphabetic);
    let sample = cut(&text);
    match codes {
        Some(_) => format!(
            "; add '{sample}'=N to the codes of `{name}` in the query, or *=N for all other texts"
        ),
        None if text.is_empty() => String::from(
            "; an empty cell is no number: fill it, or leave the row out before the search",
        ),
        None if seconds(cell).is_some_and(|time| time.billionths > 0) => {
            String::from("; cut the fraction off before the search")
        }
        None if is_decimal(&text) => String::from(
            "; only whole numbers are compared, so count in smaller units, such as 245 for 24.5",
        ),
        None if seconds(cell).is_none() && looks_like_date(&text) => String::from(
            "; dates are written as 2026-03-01 or 2026-03-01T14:05:30, times as 14:05:30",
        ),
        None if looks_like_text => format!(
            "; a column of texts needs codes, so write a line such as `{name}: '{sample}'=1` \
             into the query"
        ),
        None => String::new(),
    }
}

fn is_decimal(text: &str) -> bool {
    let digits = text.strip_prefix(['-', '+']).unwrap_or(text);
    let all = |part: &str| part.bytes().all(|byte| byte.is_ascii_digit());
    digits
        .split_once('.')
        .is_some_and(|(whole, rest)| all(whole) && all(rest))
}

fn looks_like_date(text: &str) -> bool {
    let signs = text.chars().filter(|c| "/:.-".contains(*c)).count();
    text.starts_with(|c: char| c.is_ascii_digit()) && signs > 0
}

/// A whole number as it is written, of at most 18 digits.
fn whole(cell: &[u8]) -> Option<i64> {
    let (negative, digits) = match cell {
        [b'-', digits @ ..] => (true, digits),
        [b'+', digits @ ..] => (false, digits),
        digits => (false, digits),
    };
    if digits.is_empty() || digits.len() > 18 {
        return None;
    }
    let mut number: i64 = 0;
    for digit in digits {
        let value = digit.checked_sub(b'0').filter(|value| *value <= 9)?;
        number = number.wrapping_mul(10).wrapping_add(i64::from(value));
    }
    Some(if negative {
        number.wrapping_neg()
    } else {
        number
    })
}

/// The key by which a row is ordered: a whole number, or the seconds of a date or a time.
pub fn order_key(cell: &[u8]) -> Option<Seconds> {
    match whole(cell) {
        Some(whole) => Some(Seconds {
            whole,
            billionths: 0,
        }),
        None => seconds(cell),
    }
}

#[cfg(test)]
mod tests {
    use super::*;

    #[test]
    fn numbers_as_they_are_written() {
        let read = |cell: &str| number(cell.as_bytes(), None);
        assert_eq!(read("-2147483648"), Ok(i32::MIN));
        assert_eq!(read("+2147483647"), Ok(i32::MAX));
        assert_eq!(read("007"), Ok(7));
        for wrong in [
            "",
            "-",
            "1.5",
            "1e3",
            "2147483648",
            "9999999999999999999999",
            "1 2",
        ] {
            assert_eq!(read(wrong), Err(String::from(NUMBER)), "{wrong}");
        }
        assert_eq!(read("14:05:30"), Ok(50_730));
        assert_eq!(read("1970-01-02"), Ok(86_400));
        assert!(read("2040-01-01")
            .unwrap_err()
            .starts_with("a date from 1901"));
        assert!(read("14:05:30.5").unwrap_err().starts_with("whole seconds"));
        assert_eq!(read("14:05:30.000"), Ok(50_730));
    }

    #[test]
    fn what_to_do_depends_on_the_cell() {
        let advice = |cell: &str| advice("a", cell.as_bytes(), None);
        assert!(advice("24.5").contains("smaller units"));
        assert!(advice("01/03/2026").contains("2026-03-01"));
        assert!(advice("14:05:30.5").contains("fraction"));
        assert!(advice("on").contains("`a: 'on'=1`"));
        assert_eq!(advice("+"), "");
    }

    #[test]
    fn keys_may_be_larger_than_numbers() {
        let key = |cell: &str| order_key(cell.as_bytes()).unwrap();
        assert!(key("1772373930000") > key("1772373929999"));
        assert!(key("14:05:30.5") > key("14:05:30.25"));
        assert!(order_key(b"x").is_none());
    }
}
