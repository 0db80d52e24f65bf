//! Dated shows of a card (document 02, (m)).

use super::*;
use crate::calendar::{century, date, date_of, Date, LAST_DAY};
use crate::call::{dated, Bytes};

/// A card of 5 blocks: sheet 0 is Complete from block 1 to 3, with a term.
fn card(term: (u32, u32)) -> Card {
    let payload = |seed, term| {
        let bytes = Bytes {
            seed,
            length: PAYLOAD,
            term,
        };
        bytes.contents()
    };
    let mut bytes = vec![0; BLOCK];
    bytes.extend(sealed(0, 0, &payload(1, Some(term))));
    bytes.extend(sealed(0, 1, &payload(2, None)));
    bytes.extend(sealed(0, 2, &payload(3, None)));
    bytes.extend([0; BLOCK]);
    Card {
        n: 5,
        free: 2,
        map: (0..64).map(|b| b == 0 || b == 4).collect(),
        sheets: vec![entry(COMPLETE, 1, 3)],
        bytes,
        summary: Vec::new(),
    }
}

/// What a dated show answers. It changes nothing but its buffer, and that only if it is done.
fn shown(card: &Card, place: u32, date: Date) -> Answer {
    let (mut after, mut buffer) = (card.clone(), [0x33; PAYLOAD]);
    let answer = after.call(dated(0, place, date), &mut buffer);
    assert!(after == *card);
    let mut expected = [0x33; PAYLOAD];
    if answer == Done {
        let at = BLOCK * (1 + place as usize) + 8;
        expected.copy_from_slice(&card.bytes[at..at + PAYLOAD]);
    }
    assert!(buffer == expected);
    answer
}

/// "A sheet must show only from its first day to its last, both included"; "first after last never shows".
#[test]
fn every_day_of_the_century() {
    for (first, last) in [
        (0, 0),
        (59, 425),
        (LAST_DAY, LAST_DAY),
        (9, 8),
        (8825, u32::MAX),
        (LAST_DAY + 1, u32::MAX),
    ] {
        let card = card((first, last));
        for (day, date) in (0..).zip(century()) {
            let inside = first <= day && day <= last;
            let answer = if inside { Done } else { Refused(20) };
            assert_eq!(shown(&card, day % 3, *date), answer, "{date}");
        }
    }
}

/// The reasons for 19 are together that there is no such date: all months and days up to 40 of some years, and large numbers.
#[test]
fn dates_that_do_not_exist() {
    let card = card((0, u32::MAX));
    let some = || (0..=40).chain([256, 257, 1 << 31, u32::MAX]);
    for year in (1995..=2105).chain([0, 4, 99, 65536 + 2000, u32::MAX]) {
        for (month, day) in some().flat_map(|month| some().map(move |day| (month, day))) {
            let date = date(year, month, day);
            let answer = if day_of(date).is_some() {
                Done
            } else {
                Refused(19)
            };
            assert_eq!(shown(&card, 1, date), answer, "{date}");
        }
    }
}

/// "Place 0 is checked before the place wanted": 19, 4 of place 0, 20, 4 of the place wanted.
#[test]
fn place_0_before_the_place_wanted() {
    let (inside, outside, none) = (date_of(100), date_of(99), date(2001, 2, 29));
    let whole = card((100, 100));
    let spoilt = |place: usize| {
        let mut card = card((100, 100));
        card.bytes[BLOCK * (1 + place) + 300] ^= 1;
        card
    };
    for (card, place, answers) in [
        (&whole, 0, [Done, Refused(20), Refused(19)]),
        (&whole, 2, [Done, Refused(20), Refused(19)]),
        (&whole, 3, [Refused(3), Refused(3), Refused(3)]),
        (&spoilt(0), 0, [Refused(4), Refused(4), Refused(19)]),
        (&spoilt(0), 2, [Refused(4), Refused(4), Refused(19)]),
        (&spoilt(2), 0, [Done, Refused(20), Refused(19)]),
        (&spoilt(2), 1, [Done, Refused(20), Refused(19)]),
        (&spoilt(2), 2, [Refused(4), Refused(20), Refused(19)]),
    ] {
        for (date, answer) in [inside, outside, none].into_iter().zip(answers) {
            assert_eq!(shown(card, place, date), answer, "place {place}, {date}");
        }
    }
}
