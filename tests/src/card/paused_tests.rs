//! Paused sheets of a card (document 02, (g)).

use super::*;
use crate::call::call;

/// A card of n blocks with one sheet, whose map has the bits of a number: block b is free where it has bit b.
fn card_with(n: usize, free: usize, sheet: Entry) -> Card {
    Card {
        n,
        free: free.count_ones() as usize,
        map: (0..64).map(|b| b < n && free >> b & 1 == 1).collect(),
        sheets: vec![sheet],
        bytes: vec![0; BLOCK * n],
        summary: Vec::new(),
    }
}

/// All maps and entries of 3 blocks: "an entry marked Paused may thus have an extent under Complete's rule or be 0 and 0".
#[test]
fn paused_entries_that_are_damaged() {
    let numbers = || (0..=4).chain([u32::MAX - 1, u32::MAX]);
    for free in 0..1 << 3 {
        for (start, length) in numbers().flat_map(|start| numbers().map(move |k| (start, k))) {
            let damaged = |mark| {
                let sheet = entry(mark, start, length);
                card_with(3, free, sheet).damaged(sheet)
            };
            let without_blocks = (start, length) == (0, 0);
            assert_eq!(
                damaged(PAUSED),
                damaged(COMPLETE) && !without_blocks,
                "{start} {length}"
            );
        }
    }
}

/// What each call answers for a sheet that is paused, without blocks and with two.
#[test]
fn calls_on_paused_sheets() {
    for (kind, without, with) in [
        (Kind::Reserve, Refused(6), Refused(6)),
        (Kind::Offer, Refused(6), Refused(6)),
        (Kind::Accept, Refused(6), Refused(6)),
        (Kind::Put, Refused(6), Refused(6)),
        (Kind::Grow, Refused(6), Refused(6)),
        (Kind::Complete, Refused(6), Refused(6)),
        (Kind::Pause, Refused(6), Refused(6)),
        (Kind::Resume, Refused(6), Done),
        (Kind::Release, Done, Done),
        (Kind::Show, Refused(6), Refused(6)),
        (
            Kind::Standing,
            Stands(entry(PAUSED, 0, 0)),
            Stands(entry(PAUSED, 1, 2)),
        ),
    ] {
        let answer = |start, length| {
            let mut card = card_with(4, 0b1001, entry(PAUSED, start, length));
            card.call(call(kind, 0, 1), &mut [0; PAYLOAD])
        };
        assert_eq!((answer(0, 0), answer(1, 2)), (without, with), "{kind:?}");
    }
}

/// Pause and resume change the mark alone, and a release frees the blocks.
#[test]
fn a_course_is_paused_and_taken_up_again() {
    let mut card = card_with(4, 0b1001, entry(COMPLETE, 1, 2));
    let (map, bytes) = (card.map.clone(), card.bytes.clone());
    for (kind, mark) in [(Kind::Pause, PAUSED), (Kind::Resume, COMPLETE)] {
        assert_eq!(card.call(call(kind, 0, 0), &mut []), Done);
        assert_eq!(card.sheets[0], entry(mark, 1, 2));
        assert!(card.map == map && card.bytes == bytes && card.free == 2);
    }
    assert_eq!(card.call(call(Kind::Pause, 0, 0), &mut []), Done);
    assert_eq!(card.call(call(Kind::Release, 0, 0), &mut []), Done);
    assert_eq!((card.free, card.sheets[0]), (4, ABSENT));
    assert_eq!(survey(&card.map, 4).longest, 4);
}
