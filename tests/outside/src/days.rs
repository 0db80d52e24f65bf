//! The calendar for C: the day of a date and the day of a number, of every day of the span, beside dates that are counted up.

use crate::counts::Counts;
use crate::dates::any_date;
use bitwise::calendar::{century, date, day_of, Date, LAST_DAY};
use bitwise::random::Random;

#[repr(C)]
#[derive(Clone, Copy, Debug, PartialEq)]
struct Day {
    number: u32,
    days: u32,
    year: u32,
    month: u32,
    day: u32,
}

mod c {
    extern "C" {
        pub fn pagunlit_day_of_date(year: u32, month: u32, day: u32) -> super::Day;
        pub fn pagunlit_day_of_number(days: u32) -> super::Day;
    }
}

/// A day as the header has it: with a refusal, 19, all else is 0.
fn expected(found: Option<(u32, Date)>) -> Day {
    let (number, days, Date { year, month, day }) = match found {
        Some((days, date)) => (0, days, date),
        None => (19, 0, date(0, 0, 0)),
    };
    Day {
        number,
        days,
        year,
        month,
        day,
    }
}

fn same(call: String, got: Day, expected: Day, counts: &mut Counts) -> Result<(), String> {
    counts.calls += 1;
    if got == expected {
        return Ok(());
    }
    Err(format!(
        "{call} gave {got:?}, and by the calendar it is {expected:?}"
    ))
}

fn of_date(date: Date, counts: &mut Counts) -> Result<(), String> {
    let got = unsafe { c::pagunlit_day_of_date(date.year, date.month, date.day) };
    let found = day_of(date).map(|days| (days, date));
    same(format!("the day of {date}"), got, expected(found), counts)
}

fn of_number(days: u32, counts: &mut Counts) -> Result<(), String> {
    let got = unsafe { c::pagunlit_day_of_number(days) };
    let found = century().get(days as usize).map(|date| (days, *date));
    same(
        format!("the day of number {days}"),
        got,
        expected(found),
        counts,
    )
}

/// Every day of the span both ways, every month and day of its years that could be mistaken for one, and numbers behind it.
pub fn every_day(counts: &mut Counts) -> Result<(), String> {
    for days in 0..=LAST_DAY + 1000 {
        of_number(days, counts)?;
    }
    for year in 1998..=2102 {
        for month in 0..=14 {
            for day in 0..=33 {
                of_date(date(year, month, day), counts)?;
            }
        }
    }
    for shift in 16..32 {
        of_number(1 << shift, counts)?;
        of_number(u32::MAX >> (shift - 16), counts)?;
    }
    Ok(())
}

/// Some dates, of which many do not exist, and some numbers.
pub fn random(seed: u64, _margin: usize, counts: &mut Counts) -> Result<(), String> {
    let random = &mut Random::of(seed);
    for _ in 0..100 {
        of_date(any_date(random), counts)?;
        of_number(random.draw() as u32 >> random.within(0, 20), counts)?;
    }
    Ok(())
}
