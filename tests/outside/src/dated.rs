//! Dated shows (document 02, (m)): every day of the century, every date about it, terms at every edge, and blocks that are not
//! sound.

use crate::beside::{same_slice, Beside, Compared};
use crate::counts::Counts;
use crate::dates::{any_date, some_date, some_term};
use crate::lengths::one;
use crate::library;
use bitwise::blocks::words_of;
use bitwise::calendar::{century, date, date_of, day_of, write_term, Date, LAST_DAY};
use bitwise::call::{call, dated as show_dated, Bytes, Call, Kind, PAYLOAD};
use bitwise::card::{entry, sealed, Card};
use bitwise::random::Random;
use bitwise::roles::CARER;
use bitwise::rows::Row;

/// A card on which sheet 0 is Complete with some places from block 1 on, and a term.
fn card(places: u32, term: (u32, u32)) -> Card {
    let n = places as usize + 2;
    let mut bytes = vec![0x5a; 512 * n];
    for place in 0..places {
        let term = (place == 0).then_some(term);
        let seed = 100 + place;
        let payload = Bytes {
            seed,
            term,
            ..PAYLOAD
        };
        let at = 512 * (1 + place as usize);
        bytes[at..at + 512].copy_from_slice(&sealed(0, place, &payload.contents()));
    }
    Card {
        n,
        free: 2,
        map: (0..64 * words_of(n))
            .map(|b| b == 0 || b == n - 1)
            .collect(),
        sheets: vec![entry(0x43, 1, places)],
        bytes,
        summary: Vec::new(),
    }
}

/// Terms whose first and last day are each of some days: those at the ends of years and months, at the ends of the span and
/// behind it.
fn terms() -> Vec<(u32, u32)> {
    let days = [
        0,
        59,
        366,
        8825,
        LAST_DAY - 1,
        LAST_DAY,
        LAST_DAY + 1,
        1 << 24,
        u32::MAX,
    ];
    let pairs = days
        .iter()
        .flat_map(|first| days.map(|last| (*first, last)));
    pairs.collect()
}

/// Every day of the century, with terms that hold it, end the day before or start the day after, and by turns those of `terms`.
pub fn every_day(margin: usize, counts: &mut Counts) -> Result<(), String> {
    let terms = terms();
    for (at, date) in century().iter().enumerate() {
        let day = at as u32;
        let (before, after) = (day.wrapping_sub(1), day + 1);
        let near = [(day, day), (before, after), (0, before), (after, u32::MAX)];
        for term in near.into_iter().chain([terms[at % terms.len()]]) {
            let call = show_dated(0, day % 2, *date);
            one(&card(2, term), call, margin, counts)
                .map_err(|error| format!("day {day}, term {term:?}: {error}"))?;
        }
    }
    Ok(())
}

/// The first and the last day of each term with all dates at its edges.
pub fn edges(margin: usize, counts: &mut Counts) -> Result<(), String> {
    for (first, last) in terms() {
        let card = card(3, (first, last));
        let near = |day: u32| [day.wrapping_sub(1), day, day.wrapping_add(1)];
        let days = near(first)
            .into_iter()
            .chain(near(last))
            .chain([0, LAST_DAY]);
        for day in days.filter(|day| *day <= LAST_DAY) {
            for place in 0..=3 {
                let call = show_dated(0, place, date_of(day));
                one(&card, call, margin, counts)
                    .map_err(|error| format!("days {first} and {last}: {error}"))?;
            }
        }
    }
    each_byte(margin, counts)
}

/// Each byte of the two days with some values, the others 0, with days about what each order of the bytes would make of it.
fn each_byte(margin: usize, counts: &mut Counts) -> Result<(), String> {
    for (byte, value) in (0..8).flat_map(|byte| [1, 2, 127, 128, 255].map(|value| (byte, value))) {
        let mut days = [0, 0, 0, 0, 0xff, 0xff, 0xff, 0xff];
        days[byte] = value;
        let number = |at: usize| u32::from_be_bytes(days[at..at + 4].try_into().unwrap());
        let card = card(1, (number(0), number(4)));
        let values = (0..4).map(|at| (value as u64) << (8 * at));
        let near = values.flat_map(|day| [day.saturating_sub(1), day, day + 1]);
        for day in near.filter(|day| *day <= LAST_DAY as u64) {
            let call = show_dated(0, 0, date_of(day as u32));
            one(&card, call, margin, counts)?;
        }
    }
    Ok(())
}

/// All years about the span, all months up to 14 and all days up to 33, and the largest numbers in each place of a date. The
/// term has all days.
pub fn dates(margin: usize, counts: &mut Counts) -> Result<(), String> {
    let beside = &mut Beside::new(card(2, (0, u32::MAX)), margin, Compared::All);
    let large = [100, 255, 256, 257, 65537, 1 << 31, u32::MAX - 1, u32::MAX];
    let mut try_date = |year: u32, month: u32, day: u32| {
        let date = date(year, month, day);
        let exists = day_of(date).is_some();
        let call = show_dated(0, 1, date);
        let number = beside.card.first(call).map_or(0, Row::number);
        if (number == 0) != exists {
            return Err(format!("{date} is there, or it is not"));
        }
        beside
            .call(call, counts)
            .map_err(|error| format!("{call}: {error}"))
    };
    for year in (1990..=2110).chain([0, 1, 4, 99, 400, 1900]).chain(large) {
        for month in (0..=14).chain(large) {
            for day in 0..=33 {
                try_date(year, month, day)?;
            }
            try_date(year, month, large[(year + month % 7) as usize % 8])?;
        }
    }
    Ok(())
}

/// All 32-bit numbers as the year, the month or the day, the other two being right: none but those of the calendar pass. Too
/// many for a check: it is run by its name.
pub fn all_numbers(margin: usize, counts: &mut Counts) -> Result<(), String> {
    let beside = &mut Beside::new(card(1, (0, u32::MAX)), margin, Compared::All);
    for number in 0..=u32::MAX {
        for date in [
            date(number, 2, 29),
            date(2024, number, 31),
            date(2023, 2, number),
        ] {
            let call = show_dated(0, 0, date);
            beside
                .call(call, counts)
                .map_err(|error| format!("{call}: {error}"))?;
        }
    }
    Ok(())
}

const FIRST: &str = "shown on the first day";
const LAST: &str = "shown on the last day";
const ONLY: &str = "shown on the only day";
const BETWEEN: &str = "shown on a day between";
const BEFORE: &str = "not shown on the day before the first";
const AFTER: &str = "not shown on the day after the last";
const NEVER: &str = "not shown, the first day after the last";
const LATE: &str = "not shown, the first day behind the last date";
const OPEN_END: &str = "shown, the last day behind the last date";
const LEAP: &str = "shown on a 29 February";
const NO_LEAP: &str = "no 29 February in that year";
const PLACE_0: &str = "place 0 itself shown";
const ONLY_PLACE_0: &str = "place 0 not sound, the place wanted sound";
const ONLY_WANTED: &str = "the place wanted not sound, place 0 sound";
const TERM_FIRST: &str = "the place wanted not sound, and the day outside";
const DATE_FIRST: &str = "place 0 not sound, and no such date";

const KINDS: [&str; 16] = [
    FIRST,
    LAST,
    ONLY,
    BETWEEN,
    BEFORE,
    AFTER,
    NEVER,
    LATE,
    OPEN_END,
    LEAP,
    NO_LEAP,
    PLACE_0,
    ONLY_PLACE_0,
    ONLY_WANTED,
    TERM_FIRST,
    DATE_FIRST,
];

/// What must have been met.
pub fn expected() -> impl Iterator<Item = String> {
    KINDS.map(str::to_string).into_iter()
}

/// Shows with some terms and dates, some of them of blocks that are not sound; each beside the show without a date.
pub fn dated(seed: u64, margin: usize, counts: &mut Counts) -> Result<(), String> {
    let random = &mut Random::of(seed);
    let places = random.within(1, 5) as u32;
    let mut card = card(places, some_term(random));
    let mut log = format!(
        "a sheet of {places} places with days {:?}\n",
        card.term(card.sheets[0])
    );
    if random.chance(1, 3) {
        let place = random.within(0, places as usize);
        let byte = random.one(&[3, 7, 8, 15, 200, 503, 507, 511]);
        card.bytes[512 * (1 + place) + byte] ^= 1 << random.within(0, 8);
        log += &format!("    byte {byte} of place {place} is changed\n");
    }
    let mut beside = Beside::new(card, margin, Compared::All);
    for _ in 0..12 {
        let place = random.within(0, places as usize) as u32;
        let date = match random.within(0, 8) {
            0 => random.one(&[date(2024, 2, 29), date(2023, 2, 29), date(2000, 2, 29)]),
            1 => any_date(random),
            _ => some_date(beside.card.term(beside.card.sheets[0]), random),
        };
        let show = show_dated(0, place, date);
        log += &format!("    {show}\n");
        note(&beside.card, show, counts);
        for call in [show, call(Kind::Show, 0, place)] {
            beside
                .call(call, counts)
                .map_err(|error| format!("{log}the last of these: {error}"))?;
        }
    }
    Ok(())
}

/// Counts what a dated show of a place of the sheet is an example of.
fn note(card: &Card, call: Call, counts: &mut Counts) {
    let held = card.held(call);
    let mut kinds = Vec::new();
    match held[..] {
        [] => kinds.extend(kinds_of_shown(card, call)),
        [Row::OutsideTerm] => kinds.extend(kind_of_outside(card, call)),
        [Row::NoDay] if (call.date.month, call.date.day) == (2, 29) => kinds.push(NO_LEAP),
        [Row::UnsoundFirst] => kinds.push(ONLY_PLACE_0),
        [Row::Unsound] => kinds.push(ONLY_WANTED),
        [Row::OutsideTerm, Row::Unsound] => kinds.push(TERM_FIRST),
        [Row::NoYear | Row::NoMonth | Row::NoDay, Row::UnsoundFirst, ..] => kinds.push(DATE_FIRST),
        _ => {}
    }
    kinds.iter().for_each(|kind| counts.note_kind(kind));
}

fn kinds_of_shown(card: &Card, call: Call) -> Vec<&'static str> {
    let Date { month, day, .. } = call.date;
    let (Some((first, last)), Some(number)) = (card.term(card.sheets[0]), day_of(call.date)) else {
        return Vec::new();
    };
    let when = match (number == first, number == last) {
        (true, true) => ONLY,
        (true, false) => FIRST,
        (false, true) => LAST,
        (false, false) => BETWEEN,
    };
    let others = [
        (last > LAST_DAY, OPEN_END),
        ((month, day) == (2, 29), LEAP),
        (call.number == 0, PLACE_0),
    ];
    let others = others.into_iter().filter(|(holds, _)| *holds);
    others.map(|(_, kind)| kind).chain([when]).collect()
}

fn kind_of_outside(card: &Card, call: Call) -> Option<&'static str> {
    let (first, last) = card.term(card.sheets[0])?;
    let number = day_of(call.date)?;
    match () {
        _ if first > last => Some(NEVER),
        _ if first > LAST_DAY => Some(LATE),
        _ if number + 1 == first => Some(BEFORE),
        _ if number == last + 1 => Some(AFTER),
        _ => None,
    }
}

mod c {
    extern "C" {
        pub fn pagunlit_write_term(
            payload: *mut u8,
            payloadlen: usize,
            first: u32,
            last: u32,
        ) -> u32;
    }
}

/// Terms written to payloads of every length, and of the right one with any days: only the first eight bytes change.
pub fn written(seed: u64, margin: usize, counts: &mut Counts) -> Result<(), String> {
    let random = &mut Random::of(seed);
    for length in (0..=600).chain([1024].into_iter().chain([496; 400])) {
        counts.calls += 1;
        let bytes = Bytes {
            seed: random.draw() as u32,
            length,
            term: None,
        };
        let mut payload = bytes.contents();
        let (first, last) = some_term(random);
        let mut lent = library::bytes(&payload, margin);
        let answer = unsafe { c::pagunlit_write_term(lent.at(), lent.len(), first, last) };
        let expected = write_term(&mut payload, first, last).err().unwrap_or(0);
        if answer != expected {
            return Err(format!(
                "a term written to {length} bytes gave {answer}, and by document 02 {expected}"
            ));
        }
        same_slice("payload", &lent, &payload)?;
    }
    Ok(())
}

/// What a list left: each Complete sheet at the edges of its term, its first place and its last, for a carer.
pub fn at_edges(beside: &mut Beside, sheet: usize, counts: &mut Counts) -> Result<(), String> {
    let entry = beside.card.sheets[sheet];
    let Some((first, last)) = beside.card.term(entry).filter(|_| entry.mark == 0x43) else {
        return Ok(());
    };
    let days = [first.wrapping_sub(1), first, last, last.wrapping_add(1)];
    for day in days.into_iter().filter(|day| *day <= LAST_DAY) {
        for place in [0, entry.length - 1] {
            let show = show_dated(sheet as u32, place, date_of(day));
            beside.call(show.by(CARER), counts)?;
        }
    }
    Ok(())
}
