//! Dates and terms of dated shows (document 02, (m)), of every kind.

use bitwise::calendar::{date, date_of, days_of, Date, LAST_DAY};
use bitwise::random::Random;

/// A term: some days anywhere in the span, a day, all of them, none, or one that ends or starts behind the last date.
pub fn some_term(random: &mut Random) -> (u32, u32) {
    let day = random.within(0, LAST_DAY as usize + 1) as u32;
    let length = random.one(&[0, 1, 6, 30, 365]);
    match random.within(0, 12) {
        0 => (day, day),
        1 => (0, LAST_DAY),
        2 => (0, u32::MAX),
        3 => (day + 1, day),
        4 => (u32::MAX, 0),
        5 => (LAST_DAY + random.one(&[0, 1, 2]), u32::MAX),
        6 => (day, LAST_DAY + random.one(&[0, 1, 1 << 16])),
        7 => (random.draw() as u32, random.draw() as u32),
        _ => (day, day + length),
    }
}

/// A date that a term should be tried with: its first and its last day, the days beside them, or any date.
pub fn some_date(term: Option<(u32, u32)>, random: &mut Random) -> Date {
    let Some((first, last)) = term.filter(|_| random.chance(5, 6)) else {
        return any_date(random);
    };
    let middle = first / 2 + last / 2;
    let day = match random.within(0, 5) {
        0 => first,
        1 => last,
        2 => first.wrapping_sub(1),
        3 => last.wrapping_add(1),
        _ => middle,
    };
    if day > LAST_DAY {
        return any_date(random);
    }
    date_of(day)
}

/// Any date, of which some do not exist.
pub fn any_date(random: &mut Random) -> Date {
    let existing = date_of(random.within(0, LAST_DAY as usize + 1) as u32);
    match random.within(0, 4) {
        0 => no_year(existing, random),
        1 => no_month(existing, random),
        2 => no_day(existing, random),
        _ => existing,
    }
}

/// The date with a year outside the span.
pub fn no_year(date: Date, random: &mut Random) -> Date {
    let years = [0, 24, 1999, 2100, 2104, 2000 + 65536, 1 << 31, u32::MAX];
    let year = random.one(&years);
    Date { year, ..date }
}

/// The date with a month that there is not.
pub fn no_month(date: Date, random: &mut Random) -> Date {
    let month = random.one(&[0, 13, 14, 257, 1 << 31, u32::MAX]);
    Date { month, ..date }
}

/// The date with a day that its month does not have.
pub fn no_day(date: Date, random: &mut Random) -> Date {
    let behind = days_of(date.year, date.month).unwrap_or(31) + 1;
    let day = random.one(&[0, behind, behind, 32, 33, 257, u32::MAX]);
    Date { day, ..date }
}

/// A date within a term; 1 January 2000 if there is none.
pub fn date_within(term: Option<(u32, u32)>, random: &mut Random) -> Date {
    match term {
        Some((first, last)) if first <= last.min(LAST_DAY) => {
            let last = last.min(LAST_DAY) as usize;
            date_of(random.within(first as usize, last + 1) as u32)
        }
        _ => date(2000, 1, 1),
    }
}

/// A date outside a term, if there is one.
pub fn date_outside((first, last): (u32, u32), random: &mut Random) -> Option<Date> {
    let before = first.checked_sub(1).map(|day| day.min(LAST_DAY));
    let after = last.checked_add(1).filter(|day| *day <= LAST_DAY);
    let days: Vec<u32> = before.into_iter().chain(after).collect();
    (!days.is_empty()).then(|| date_of(random.one(&days)))
}
