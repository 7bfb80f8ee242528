//! Dates and times as whole seconds. A date with or without a time of day counts from 1970-01-01
//! 00:00:00, without leap seconds; where a time has no offset from UTC it is taken as it stands. A
//! time of day alone counts from midnight.
//!
//! `2026-03-01`, `2026-03-01 14:05`, `2026-03-01T14:05:30Z`, `2026-03-01T14:05:30+01:00`, `14:05`,
//! `14:05:30`. A fraction of a second is kept apart, so that rows can be ordered by it.

/// Seconds, and billionths of one behind them.
#[derive(Clone, Copy, Debug, PartialEq, Eq, PartialOrd, Ord)]
pub struct Seconds {
    /// Whole seconds.
    pub whole: i64,
    /// Billionths of a second behind them, 0 to 999,999,999.
    pub billionths: u32,
}

/// The seconds that a text means; none where it is no date and no time.
pub fn seconds(text: &[u8]) -> Option<Seconds> {
    let mut reader = Reader { left: text };
    if text.get(4) == Some(&b'-') {
        let day = reader.date()?;
        let (of_day, billionths) = match reader.left {
            [] => (0, 0),
            [b' ' | b'T' | b't', rest @ ..] => {
                reader.left = rest;
                let time = reader.time()?;
                let offset = reader.offset()?;
                (time.0.saturating_sub(offset), time.1)
            }
            _ => return None,
        };
        let whole = day.saturating_mul(86_400).saturating_add(of_day);
        return reader.ended(Seconds { whole, billionths });
    }
    let (whole, billionths) = reader.time()?;
    reader.ended(Seconds { whole, billionths })
}

struct Reader<'a> {
    left: &'a [u8],
}

impl Reader<'_> {
    fn ended(&self, seconds: Seconds) -> Option<Seconds> {
        self.left.is_empty().then_some(seconds)
    }

    /// So many digits as a number.
    fn digits(&mut self, count: usize) -> Option<i64> {
        let (digits, rest) = (self.left.get(..count)?, self.left.get(count..)?);
        let mut number: i64 = 0;
        for digit in digits {
            let value = digit.checked_sub(b'0').filter(|value| *value <= 9)?;
            number = number.saturating_mul(10).saturating_add(i64::from(value));
        }
        self.left = rest;
        Some(number)
    }

    fn pass(&mut self, byte: u8) -> bool {
        match self.left {
            [first, rest @ ..] if *first == byte => {
                self.left = rest;
                true
            }
            _ => false,
        }
    }

    /// The days since 1970-01-01.
    fn date(&mut self) -> Option<i64> {
        let year = self.digits(4)?;
        let month = self.pass(b'-').then(|| self.digits(2))??;
        let day = self.pass(b'-').then(|| self.digits(2))??;
        let in_month = (1..=12).contains(&month) && (1..=days_of(year, month)).contains(&day);
        in_month.then(|| days_before(year, month).saturating_add(day))
    }

    /// The seconds since midnight, and billionths.
    fn time(&mut self) -> Option<(i64, u32)> {
        let hour = self.digits(2)?;
        let minute = self.pass(b':').then(|| self.digits(2))??;
        let (second, billionths) = match self.pass(b':') {
            true => (self.digits(2)?, self.fraction()?),
            false => (0, 0),
        };
        let minutes = hour.saturating_mul(60).saturating_add(minute);
        let seconds = minutes.saturating_mul(60).saturating_add(second);
        (hour < 24 && minute < 60 && second < 60).then_some((seconds, billionths))
    }

    /// A dot and digits; what lies beyond billionths is left out.
    fn fraction(&mut self) -> Option<u32> {
        if !self.pass(b'.') && !self.pass(b',') {
            return Some(0);
        }
        let (mut value, mut weight, mut any) = (0_u32, 100_000_000_u32, false);
        while let [digit @ b'0'..=b'9', rest @ ..] = self.left {
            let digit = u32::from(digit.saturating_sub(b'0'));
            value = value.saturating_add(digit.saturating_mul(weight));
            weight = weight.checked_div(10).unwrap_or(0);
            (self.left, any) = (rest, true);
        }
        any.then_some(value)
    }

    /// `Z`, an offset such as `+01:00`, `+0100` or `+01`, or nothing, in seconds.
    fn offset(&mut self) -> Option<i64> {
        if self.left.is_empty() || self.pass(b'Z') || self.pass(b'z') {
            return Some(0);
        }
        let east = self.pass(b'+');
        if !east && !self.pass(b'-') {
            return None;
        }
        let hours = self.digits(2)?;
        let minutes = match self.left {
            [] => 0,
            _ => {
                self.pass(b':');
                self.digits(2)?
            }
        };
        let minutes = hours.saturating_mul(60).saturating_add(minutes);
        let seconds = minutes.saturating_mul(60);
        Some(if east {
            seconds
        } else {
            seconds.saturating_neg()
        })
    }
}

fn is_leap(year: i64) -> bool {
    let by = |n: i64| year.checked_rem(n) == Some(0);
    by(4) && (!by(100) || by(400))
}

fn days_of(year: i64, month: i64) -> i64 {
    match month {
        4 | 6 | 9 | 11 => 30,
        2 if is_leap(year) => 29,
        2 => 28,
        _ => 31,
    }
}

/// The days from 1970-01-01 to the day before the first of a month.
fn days_before(year: i64, month: i64) -> i64 {
    let past = year.saturating_sub(1);
    let leaps = |n: i64| past.checked_div(n).unwrap_or(0);
    let leap_days = leaps(4)
        .saturating_sub(leaps(100))
        .saturating_add(leaps(400));
    // 719,162 days lie between 0001-01-01 and 1970-01-01; the first of a month is one behind.
    let years = past.saturating_mul(365).saturating_add(leap_days);
    let months = (1..month).map(|month| days_of(year, month));
    let days = months.fold(years, i64::saturating_add);
    days.saturating_sub(719_163)
}

#[cfg(test)]
mod tests {
    use super::*;

    fn whole(text: &str) -> Option<i64> {
        seconds(text.as_bytes()).map(|seconds| seconds.whole)
    }

    #[test]
    fn dates_count_from_1970() {
        assert_eq!(whole("1970-01-01"), Some(0));
        assert_eq!(whole("1969-12-31 23:59:59"), Some(-1));
        assert_eq!(whole("2000-02-29"), Some(951_782_400));
        assert_eq!(whole("2026-03-01T14:05:30Z"), Some(1_772_373_930));
        assert_eq!(whole("2026-03-01 14:05"), Some(1_772_373_900));
        assert_eq!(whole("2026-03-01T15:05:30+01:00"), Some(1_772_373_930));
        assert_eq!(whole("2026-03-01T12:35:30-0130"), Some(1_772_373_930));
        assert_eq!(whole("2038-01-19 03:14:07"), Some(i64::from(i32::MAX)));
        assert_eq!(whole("0001-01-01"), Some(-62_135_596_800));
        assert_eq!(whole("2100-03-01"), Some(4_107_542_400));
    }

    #[test]
    fn times_count_from_midnight() {
        assert_eq!(whole("00:00"), Some(0));
        assert_eq!(whole("14:05:30"), Some(50_730));
        let half = seconds(b"14:05:30.25");
        assert_eq!(half.map(|it| it.billionths), Some(250_000_000));
        let tiny = seconds(b"2026-03-01T14:05:30.1234567899Z");
        assert_eq!(tiny.map(|it| it.billionths), Some(123_456_789));
    }

    #[test]
    fn what_is_no_date_and_no_time() {
        for text in [
            "",
            "1",
            "24:00",
            "12:60",
            "12:00:60",
            "12:0",
            "12:00:",
            "12:00:00.",
            "2026-02-29",
            "2026-13-01",
            "2026-00-01",
            "2026-01-00",
            "2026-1-01",
            "2026-01-01 ",
            "2026-01-01x",
            "2026-01-01T",
            "2026-01-01 12:00+",
            "2026-01-01 12:00+1",
            "12:00 Z",
            "-026-01-01",
        ] {
            assert_eq!(whole(text), None, "{text}");
        }
    }
}
