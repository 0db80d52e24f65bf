//! Wings that share a card (document 02, (k)).

use super::*;
use crate::call::{accept, call, placed, LARGEST};

/// A card of 300 blocks and 300 sheets: sheet 3 is Open from 10 on with 20 blocks, sheet 127 Complete from 40 on with 5, sheet
/// 128 a paused course of 7 blocks from 60 on, the others are Absent. Wing 0 holds 25 blocks, wing 1 holds 7, wing 2 none.
fn card() -> Card {
    let mut card = Card {
        n: 300,
        free: 268,
        map: fresh(300, 5),
        sheets: vec![ABSENT; 300],
        bytes: vec![7; BLOCK * 300],
        summary: Vec::new(),
    };
    for (sheet, mark, start, length) in [
        (3, OPEN, 10, 20),
        (127, COMPLETE, 40, 5),
        (128, PAUSED, 60, 7),
    ] {
        card.sheets[sheet] = entry(mark, start as u32, length as u32);
        mark_taken(&mut card.map, start, length);
    }
    card.summary = crate::summary::build(&card.map, 300);
    card
}

fn mark_taken(map: &mut [bool], start: usize, length: usize) {
    mark(map, start, start + length, TAKEN);
}

/// The calls that limits go with, each of a sheet for k blocks; a grow of sheet 3.
fn calls(sheet: u32, k: u32) -> Vec<Call> {
    let without = [
        call(Kind::Reserve, sheet, k),
        placed(sheet, k, figures(70, 300, 1)),
        call(Kind::Offer, sheet, k),
        accept(sheet, 100, k),
    ];
    let grow = (sheet == 3).then(|| call(Kind::Grow, 3, k));
    let calls: Vec<Call> = match grow {
        Some(grow) => vec![grow],
        None => without.to_vec(),
    };
    let forms = calls.iter().map(|call| call.with_summary());
    calls.clone().into_iter().chain(forms).collect()
}

#[test]
fn what_the_wings_hold() {
    let held: Vec<u64> = (0..8).map(|wing| card().held_by_wing(wing)).collect();
    assert_eq!(held, [25, 7, 0, 0, 0, 0, 0, 0]);
}

/// "The blocks held by the wing of the sheet called for [..] and the blocks wanted may together not exceed that wing's limit":
/// of each wing with the limit that they come to, and with one less; the limits of the others do not matter.
#[test]
fn at_the_limit_and_one_above() {
    for (sheet, wing, held) in [
        (0, 0, 25),
        (126, 0, 25),
        (129, 1, 7),
        (255, 1, 7),
        (256, 2, 0),
        (3, 0, 25),
    ] {
        for k in [1, 2, 9] {
            for (others, call) in [0, u32::MAX]
                .into_iter()
                .flat_map(|others| calls(sheet, k).into_iter().map(move |call| (others, call)))
            {
                let mut limits = [others; 8];
                limits[wing] = held + k;
                let mut card = card();
                assert_eq!(card.first(call.with_limits(limits)), None, "{call}");
                limits[wing] -= 1;
                let before = card.clone();
                assert_eq!(
                    card.call(call.with_limits(limits), &mut []),
                    Refused(18),
                    "{call}"
                );
                assert!(card == before);
            }
        }
    }
}

/// "In 64 bits, damaged entries too": sheet 5 has a length that it cannot have.
#[test]
fn lengths_of_damaged_entries_count() {
    for (length, k) in [(1 << 31, 1 << 31), (u32::MAX, 1), (u32::MAX - 25, 1)] {
        let mut card = card();
        card.sheets[5] = entry(OPEN, 0, length);
        for call in calls(0, k).into_iter().chain(calls(3, k)) {
            assert_eq!(card.first(call), Some(Row::OverLimit), "{call}");
        }
        assert!(calls(256, 2).iter().all(|call| card.first(*call).is_none()));
    }
}

/// "After 3 and 15, before 10, 11 and 17."
#[test]
fn the_place_of_row_18() {
    let none = [0; 8];
    let first = |call: Call| card().first(call.with_limits(none));
    for (call, row) in [
        (call(Kind::Reserve, 3, 1), Row::Open),
        (call(Kind::Reserve, 0, 0), Row::NoBlocks),
        (placed(0, 1, figures(0, 0, 1)), Row::FromNotBefore),
        (placed(0, 1, figures(0, 300, 0)), Row::NoStep),
        (call(Kind::Reserve, 0, 301), Row::OverLimit),
        (call(Kind::Offer, 0, 301), Row::OverLimit),
        (placed(0, 301, figures(0, 300, 1)), Row::OverLimit),
        (accept(0, 10, 1), Row::OverLimit),
        (accept(0, 10, 0), Row::NoBlocks),
        (call(Kind::Grow, 3, 11), Row::OverLimit),
        (call(Kind::Grow, 3, 0), Row::NoBlocks),
        (call(Kind::Grow, 127, 1), Row::Complete),
        (call(Kind::Reserve, 300, 1), Row::NoSheet),
        (call(Kind::Reserve, u32::MAX, 1), Row::NoSheet),
    ] {
        assert_eq!(first(call), Some(row), "{call}");
        assert_eq!(first(call.with_summary()), Some(row), "{call}");
    }
    for call in [
        call(Kind::Release, 3, 0),
        call(Kind::Pause, 0, 0),
        call(Kind::Search, 0, 9),
    ] {
        assert_eq!(first(call), None, "{call}");
    }
}

/// A limit of 2^32 - 1 is passed by 33 bits alone.
#[test]
fn the_largest_limits() {
    let whole = call(Kind::Reserve, 256, u32::MAX).with_limits(LARGEST);
    assert_eq!(card().first(whole), Some(Row::NoFit));
    let more = call(Kind::Reserve, 200, u32::MAX - 6).with_limits(LARGEST);
    assert_eq!(card().first(more), Some(Row::OverLimit));
}
