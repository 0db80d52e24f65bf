//! The calendar of document 02, (m): from 1 January 2000, which is day 0, to 31 December 2099. Nothing is worked out by a
//! formula; the dates are counted up, one after the other.

use std::collections::HashMap;
use std::fmt;
use std::sync::OnceLock;

/// A year, a month and a day, whether there is such a date or not.
#[derive(Clone, Copy, Debug, PartialEq, Eq, Hash)]
pub struct Date {
    pub year: u32,
    pub month: u32,
    pub day: u32,
}

pub const fn date(year: u32, month: u32, day: u32) -> Date {
    Date { year, month, day }
}

pub const FIRST_YEAR: u32 = 2000;
pub const LAST_YEAR: u32 = 2099;

/// The number of the last day, that of 31 December 2099.
pub const LAST_DAY: u32 = 36524;

impl fmt::Display for Date {
    fn fmt(&self, f: &mut fmt::Formatter) -> fmt::Result {
        write!(f, "{} {} {}", self.year, self.month, self.day)
    }
}

/// Of a year "divisible by 4 in this span".
fn is_leap(year: u32) -> bool {
    year % 4 == 0
}

/// How many days a month of a year has, if it is one of the twelve.
pub fn days_of(year: u32, month: u32) -> Option<u32> {
    match month {
        1 | 3 | 5 | 7 | 8 | 10 | 12 => Some(31),
        4 | 6 | 9 | 11 => Some(30),
        2 if is_leap(year) => Some(29),
        2 => Some(28),
        _ => None,
    }
}

/// The date after one that exists.
fn next(date: Date) -> Date {
    let mut next = Date {
        day: date.day + 1,
        ..date
    };
    if days_of(date.year, date.month).is_none_or(|last| next.day > last) {
        (next.month, next.day) = (date.month + 1, 1);
    }
    if next.month > 12 {
        (next.year, next.month) = (date.year + 1, 1);
    }
    next
}

/// Every date of the span in order: that of day number i is the one at i.
pub fn century() -> &'static [Date] {
    static DATES: OnceLock<Vec<Date>> = OnceLock::new();
    DATES.get_or_init(|| {
        let mut dates = vec![date(FIRST_YEAR, 1, 1)];
        loop {
            let next = next(dates[dates.len() - 1]);
            if next.year > LAST_YEAR {
                return dates;
            }
            dates.push(next);
        }
    })
}

/// The day number of a date, if it exists and lies in the span.
pub fn day_of(date: Date) -> Option<u32> {
    static DAYS: OnceLock<HashMap<Date, u32>> = OnceLock::new();
    let days = DAYS.get_or_init(|| {
        (0..)
            .zip(century())
            .map(|(day, date)| (*date, day))
            .collect()
    });
    days.get(&date).copied()
}

/// The date of a day number of the span.
pub fn date_of(day: u32) -> Date {
    century()[day as usize]
}

/// The first and the last day that a payload starts with, 4 bytes each, the high byte first.
pub fn term_of(payload: &[u8]) -> (u32, u32) {
    let number = |at: usize| {
        let bytes = &payload[at..at + 4];
        bytes
            .iter()
            .fold(0, |sum: u32, byte| sum << 8 | *byte as u32)
    };
    (number(0), number(4))
}

/// Writes the two days of a term, any two numbers, to the payload of a place 0: its first eight bytes and no others. 3 unless
/// the payload has 496 bytes, and then nothing is changed.
pub fn write_term(payload: &mut [u8], first: u32, last: u32) -> Result<(), u32> {
    if payload.len() != 496 {
        return Err(3);
    }
    payload[..4].copy_from_slice(&first.to_be_bytes());
    payload[4..8].copy_from_slice(&last.to_be_bytes());
    Ok(())
}

/// Whether a day lies in a term, the first and the last day included.
pub fn within((first, last): (u32, u32), day: u32) -> bool {
    first <= day && day <= last
}

#[cfg(test)]
mod tests {
    use super::*;

    /// Days whose numbers can be looked up elsewhere: `date -d 2024-02-29 +%s` and the like, over 86,400 seconds.
    #[test]
    fn days_that_are_known() {
        for (year, month, day, number) in [
            (2000, 1, 1, 0),
            (2000, 2, 28, 58),
            (2000, 2, 29, 59),
            (2000, 3, 1, 60),
            (2000, 12, 31, 365),
            (2001, 1, 1, 366),
            (2001, 3, 1, 425),
            (2024, 2, 29, 8825),
            (2024, 3, 1, 8826),
            (2038, 1, 19, 13898),
            (2099, 12, 31, LAST_DAY),
        ] {
            let date = date(year, month, day);
            assert_eq!(day_of(date), Some(number), "{date}");
            assert_eq!(date_of(number), date);
        }
        assert_eq!(century().len() as u32, LAST_DAY + 1);
    }

    /// 75 years of 365 days and 25 leap years; of each month the days that the rhyme gives it.
    #[test]
    fn years_and_months_have_their_days() {
        for year in FIRST_YEAR..=LAST_YEAR {
            let in_year = |date: &&Date| date.year == year;
            let days = century().iter().filter(in_year).count();
            assert_eq!(days, if year % 4 == 0 { 366 } else { 365 }, "{year}");
            for (month, days) in (1..).zip([31, 0, 31, 30, 31, 30, 31, 31, 30, 31, 30, 31]) {
                let february = if year % 4 == 0 { 29 } else { 28 };
                let days = if month == 2 { february } else { days };
                let all = century().iter().filter(in_year);
                let of_month: Vec<u32> = all
                    .filter(|date| date.month == month)
                    .map(|date| date.day)
                    .collect();
                assert_eq!(of_month, (1..=days).collect::<Vec<_>>(), "{year} {month}");
            }
        }
    }

    #[test]
    fn dates_that_do_not_exist() {
        for date in [
            date(1999, 12, 31),
            date(2100, 1, 1),
            date(2001, 2, 29),
            date(2100, 2, 28),
            date(2000, 2, 30),
            date(2024, 4, 31),
            date(2024, 13, 1),
            date(2024, 0, 1),
            date(2024, 1, 0),
            date(2024, 1, 32),
            date(0, 0, 0),
            date(u32::MAX, u32::MAX, u32::MAX),
        ] {
            assert_eq!(day_of(date), None, "{date}");
        }
    }

    /// What is written is read again, and the other bytes stay.
    #[test]
    fn terms_that_are_written() {
        for (first, last) in [
            (0, 0),
            (258, 260),
            (0x0102_0304, 0x0506_0708),
            (u32::MAX, 1),
        ] {
            let mut payload = [0x77; 496];
            assert_eq!(write_term(&mut payload, first, last), Ok(()));
            assert_eq!(term_of(&payload), (first, last));
            assert_eq!(payload[8..], [0x77; 488]);
        }
        let mut short = [0x77; 495];
        assert_eq!(write_term(&mut short, 1, 2), Err(3));
        assert_eq!(short, [0x77; 495]);
    }

    /// Both days included; first after last never; the high byte first.
    #[test]
    fn terms() {
        let mut payload = [0x77; 496];
        payload[..8].copy_from_slice(&[0, 0, 1, 2, 0, 0, 1, 4]);
        let term = term_of(&payload);
        assert_eq!(term, (258, 260));
        let inside: Vec<u32> = (0..1000).filter(|day| within(term, *day)).collect();
        assert_eq!(inside, [258, 259, 260]);
        assert!((0..=LAST_DAY).all(|day| !within((260, 258), day)));
        assert!((0..=LAST_DAY).all(|day| within((0, u32::MAX), day)));
        assert!((0..=LAST_DAY).all(|day| !within((LAST_DAY + 1, u32::MAX), day)));
    }
}
