//! Who may do what on a card, and what a carer can learn of it (document 02, (n)).

use super::*;
use crate::calendar::date;
use crate::call::{call, dated, CALLS};
use crate::random::Random;
use crate::roles::{admitted, turned_away, CARER, OF_CARER, PHARMACIST};
use crate::summary::build;

/// A card of 12 blocks: sheet 0 is Absent, sheet 1 Open with a blank place, sheet 2 Complete with a term of days 0 and 1,
/// sheet 3 a paused course, sheet 4 a pause without blocks. Every byte that no Complete sheet has is random.
fn card(random: &mut Random) -> Card {
    let mut map = fresh(12, 1);
    mark(&mut map, 1, 3, TAKEN);
    mark(&mut map, 4, 6, TAKEN);
    mark(&mut map, 9, 10, TAKEN);
    let mut bytes: Vec<u8> = (0..12 * BLOCK).map(|_| random.draw() as u8).collect();
    let mut first = [7; PAYLOAD];
    first[..8].copy_from_slice(&[0, 0, 0, 0, 0, 0, 0, 1]);
    bytes[4 * BLOCK..5 * BLOCK].copy_from_slice(&sealed(2, 0, &first));
    bytes[5 * BLOCK..6 * BLOCK].copy_from_slice(&sealed(2, 1, &[8; PAYLOAD]));
    Card {
        n: 12,
        free: 7,
        summary: build(&map, 12),
        map,
        sheets: vec![
            ABSENT,
            entry(OPEN, 1, 2),
            entry(COMPLETE, 4, 2),
            entry(PAUSED, 9, 1),
            entry(PAUSED, 0, 0),
        ],
        bytes,
    }
}

/// Every call with every sheet, some numbers and some dates.
fn calls() -> impl Iterator<Item = Call> {
    let kinds = CALLS.iter().map(|(kind, ..)| *kind);
    let sheets = kinds.flat_map(|kind| (0..6).map(move |sheet| (kind, sheet)));
    let numbers = sheets.flat_map(|(kind, sheet)| {
        let numbers = [0, 1, 2, 7, 12, 13].into_iter();
        numbers.map(move |number| call(kind, sheet, number))
    });
    numbers.flat_map(|call| {
        let dates = [date(2000, 1, 1), date(2000, 1, 3), date(2000, 0, 1)];
        dates.map(|date| Call { date, ..call })
    })
}

/// A call by a role that may make it does and answers what the pharmacist's does; one that is turned away changes nothing.
#[test]
fn calls_of_each_role() {
    let card = card(&mut Random::of(1));
    for call in calls() {
        let made = |role| {
            let (mut after, mut slice) = (card.clone(), call.slice());
            let answer = after.call(call.by(role), &mut slice);
            (answer, after, slice)
        };
        let name = call.kind.name();
        let by_pharmacist = made(PHARMACIST);
        for role in admitted(name) {
            assert!(made(role) == by_pharmacist, "{role} {call}");
        }
        for role in turned_away(name) {
            let unchanged = (Refused(21), card.clone(), call.slice());
            assert!(made(role) == unchanged, "{role} {call}");
        }
    }
}

/// "Two cards that agree in length, shape, map, catalogue and every block of Complete sheets give a carer's equal calls equal
/// answers [..], however the other blocks differ."
#[test]
fn what_a_carer_can_learn() {
    let [one, other] = [1, 2].map(|seed| card(&mut Random::of(seed)));
    assert!(one != other);
    let mut shown = 0;
    for call in calls() {
        let made = |card: &Card| {
            let (mut after, mut slice) = (card.clone(), call.slice());
            let answer = after.call(call.by(CARER), &mut slice);
            assert!(after == *card, "{call} changed the card");
            (answer, slice)
        };
        let answer = made(&one);
        assert!(answer == made(&other), "{call}");
        assert_eq!(
            answer.0 == Refused(21),
            !OF_CARER.contains(&call.kind.name())
        );
        shown += (call.kind == Kind::ShowDated && answer.0 == Done) as u32;
    }
    assert_eq!(shown, 2);
}

/// A pharmacist can learn more: complete tells which places of an Open sheet are blank, and a carer may not call it.
#[test]
fn what_a_pharmacist_can_learn() {
    let [mut one, mut other] = [1, 1].map(|seed| card(&mut Random::of(seed)));
    one.bytes[BLOCK..3 * BLOCK].fill(0);
    other.bytes[BLOCK..2 * BLOCK].copy_from_slice(&sealed(1, 0, &[9; PAYLOAD]));
    other.bytes[2 * BLOCK..3 * BLOCK].fill(0);
    let complete = call(Kind::Complete, 1, 0);
    assert_eq!(one.call(complete, &mut []), Blank(0));
    assert_eq!(other.call(complete, &mut []), Blank(1));
    assert_eq!(one.call(complete.by(CARER), &mut []), Refused(21));
    let shown = dated(2, 1, date(2000, 1, 2)).by(CARER);
    assert_eq!(one.call(shown, &mut [0; PAYLOAD]), Done);
}
