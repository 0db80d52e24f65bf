//! The days of calls.c (document 02, (m)), from dates that are counted up.

use bitwise::calendar::{century, date, day_of, Date};

/// The lines of calls.c. With a refusal all else than its number is 0.
pub fn days() -> Vec<(String, String)> {
    let told = |found: Option<(u32, Date)>| match found {
        Some((days, date)) => format!("0 days {days} date {date}"),
        None => format!("19 days 0 date {}", date(0, 0, 0)),
    };
    let dates = [
        date(2024, 2, 29),
        date(2023, 2, 29),
        date(2077, 7, 8),
        date(2100, 1, 1),
    ];
    let of_dates = dates.map(|date| {
        (
            format!("day of {date}"),
            told(day_of(date).map(|days| (days, date))),
        )
    });
    let numbers = [0, 8825, 28313, 36524, 36525];
    let of_numbers = numbers.map(|days| {
        let found = century().get(days as usize);
        (
            format!("date of {days}"),
            told(found.map(|date| (days, *date))),
        )
    });
    of_dates.into_iter().chain(of_numbers).collect()
}
