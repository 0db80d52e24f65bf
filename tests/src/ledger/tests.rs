//! The ledger's answers, and the card beside it.

use super::*;
use crate::blocks::{figures, scratch_words};
use crate::calendar::date;
use crate::call::{accept, call, placed};
use crate::card::Card;
use crate::random::Random;
use crate::summary::build;

/// A release gives the blocks back, and a new reserve has blank places, whatever was put there before.
#[test]
fn a_sheet_from_reserve_to_reserve() {
    let mut ledger = Ledger::fresh(3, 2);
    let buffer = &mut [0; 496];
    assert_eq!(ledger.reserve(0, 2, plain(3)), Ok(Start(0, 3)));
    assert_eq!(ledger.put(0, 1, &[7; 496]), Ok(Done));
    assert_eq!(ledger.complete(0), Err(Blank(0)));
    assert_eq!(ledger.put(0, 0, &[8; 496]), Ok(Done));
    assert_eq!(ledger.complete(0), Ok(Done));
    assert_eq!(ledger.show(0, 1, None, buffer), Ok(Done));
    assert_eq!(buffer[0], 7);
    assert_eq!(ledger.reserve(1, 2, plain(3)), Err(Refused(10)));
    assert_eq!(ledger.release(0), Ok(Done));
    assert_eq!(ledger.reserve(1, 2, plain(3)), Ok(Start(0, 3)));
    assert_eq!(ledger.complete(1), Err(Blank(0)));
    assert_eq!(ledger.put(1, 0, &[9; 496]), Ok(Done));
    assert_eq!(ledger.complete(1), Err(Blank(1)));
    assert_eq!((ledger.granted, ledger.returned), (4, 2));
    assert_eq!(ledger.free_count(), 1);
}

/// Of 5 places, those that are filled in this order, and the place with 9 after each.
#[test]
fn the_lowest_blank_place() {
    let mut ledger = Ledger::fresh(8, 1);
    assert_eq!(ledger.reserve(0, 5, plain(8)), Ok(Start(0, 8)));
    for (filled, lowest) in [(1, 0), (4, 0), (0, 2), (3, 2)] {
        assert_eq!(ledger.put(0, filled, &[7; 496]), Ok(Done));
        assert_eq!(ledger.complete(0), Err(Blank(lowest)));
    }
}

/// Document 02, (a): the ledger's fits are those of the figures, 15 comes after 3 and before 10, and a refused call leaves
/// the ledger alone.
#[test]
fn placed_reserves() {
    let mut ledger = Ledger::fresh(100, 3);
    assert_eq!(ledger.reserve(0, 10, plain(100)), Ok(Start(0, 100)));
    for (k, refused) in [(0, 3), (1, 15), (101, 15)] {
        for (from, before, step) in [(0, 100, 0), (9, 9, 1), (0, 101, 1)] {
            let answer = ledger.reserve(1, k, figures(from, before, step));
            assert_eq!(answer, Err(Refused(refused)));
        }
    }
    assert_eq!(ledger.reserve(0, 0, figures(0, 0, 0)), Err(Refused(7)));
    assert_eq!(ledger.reserve(3, 0, figures(0, 0, 0)), Err(Refused(2)));
    assert_eq!(ledger.reserve(1, 5, figures(0, 20, 8)), Err(Refused(10)));
    assert_eq!(ledger.free_count(), 90);
    assert_eq!(ledger.reserve(1, 5, figures(0, 21, 8)), Ok(Start(16, 84)));
    assert_eq!(ledger.reserve(2, 6, plain(100)), Ok(Start(10, 6)));
    assert_eq!((ledger.granted, ledger.free_count()), (21, 79));
}

/// Document 02, (b): the space behind a start is measured before the marking, ends at the next taken block or n, whatever
/// `before` is, and is what could be added to the sheet.
#[test]
fn the_space_behind_a_start() {
    let mut ledger = Ledger::fresh(100, 4);
    assert_eq!(ledger.reserve(0, 10, figures(20, 40, 1)), Ok(Start(20, 80)));
    assert_eq!(ledger.reserve(1, 5, plain(100)), Ok(Start(0, 20)));
    assert_eq!(ledger.reserve(2, 5, figures(8, 13, 4)), Ok(Start(8, 12)));
    assert_eq!(ledger.reserve(3, 3, plain(100)), Ok(Start(5, 3)));
    assert_eq!(ledger.grow(3, 1), Err(Refused(11)));
    assert_eq!(ledger.grow(2, 8), Err(Refused(11)));
    assert_eq!(ledger.grow(2, 7), Ok(Done));
    assert_eq!(ledger.grow(0, 71), Err(Refused(11)));
    assert_eq!(ledger.grow(0, 70), Ok(Done));
}

/// Document 02, (f): an offer changes nothing, an accept takes the run that was offered if it is still free, whether it is the
/// lowest fit by then or not, and a plain reserve still gets the lowest.
#[test]
fn offers_and_accepts() {
    let mut ledger = Ledger::fresh(100, 5);
    assert_eq!(ledger.reserve(0, 10, plain(100)), Ok(Start(0, 100)));
    assert_eq!(ledger.offer(1, 20), Ok(Offered(10, 20)));
    assert_eq!(ledger.offer(1, 5), Ok(Offered(10, 5)));
    assert_eq!(ledger.offer(2, 20), Ok(Offered(10, 20)));
    assert_eq!((ledger.granted, ledger.free_count()), (10, 90));
    assert_eq!(ledger.release(0), Ok(Done));
    assert_eq!(ledger.accept(1, 10, 20), Ok(Start(10, 90)));
    assert_eq!(ledger.accept(2, 10, 20), Err(Refused(17)));
    assert_eq!(ledger.accept(2, 9, 1), Ok(Start(9, 1)));
    assert_eq!(ledger.reserve(3, 9, plain(100)), Ok(Start(0, 9)));
    assert_eq!(ledger.accept(4, 30, 70), Ok(Start(30, 70)));
    assert_eq!((ledger.granted, ledger.free_count()), (110, 0));
}

/// An offer is refused as a reserve is; an accept with 17 for a run that is taken or ends behind n, also where its end has 33
/// bits, and with 3 for no blocks, wherever they would be.
#[test]
fn refused_offers_and_accepts() {
    const MAX: usize = u32::MAX as usize;
    let mut ledger = Ledger::fresh(100, 3);
    assert_eq!(ledger.accept(0, 40, 20), Ok(Start(40, 60)));
    assert_eq!(ledger.pause(1), Ok(Done));
    for (sheet, refused) in [(0, 7), (1, 6), (3, 2)] {
        assert_eq!(ledger.offer(sheet, 0), Err(Refused(refused)));
        assert_eq!(ledger.accept(sheet, MAX, 0), Err(Refused(refused)));
        assert_eq!(ledger.accept(sheet, 0, MAX), Err(Refused(refused)));
    }
    // Of the limit, 2^32 - 1, the wing holds 20.
    for (k, refused) in [(0, 3), (41, 10), (MAX - 20, 10), (MAX - 19, 18)] {
        assert_eq!(ledger.offer(2, k), Err(Refused(refused)));
        assert_eq!(ledger.reserve(2, k, plain(100)), Err(Refused(refused)));
    }
    let taken = [(40, 1), (39, 2), (59, 1), (0, 41), (59, 41)];
    let behind = [(100, 1), (99, 2), (60, 41), (0, 101)];
    let most = MAX - 20;
    let largest = [(MAX, 1), (1, most), (MAX, most), (MAX - 9, 10)];
    for (start, k) in taken.into_iter().chain(behind).chain(largest) {
        assert_eq!(ledger.accept(2, start, k), Err(Refused(17)));
        assert_eq!(ledger.accept(2, start, 0), Err(Refused(3)));
    }
    assert_eq!(ledger.free_count(), 80);
    assert_eq!(ledger.accept(2, 60, 40), Ok(Start(60, 40)));
}

/// Document 02, (g): a finished course that is paused keeps its payloads and covers its blocks; a pause without blocks is not
/// resumed.
#[test]
fn a_course_is_paused_and_taken_up_again() {
    let mut ledger = Ledger::fresh(10, 3);
    let buffer = &mut [0; 496];
    assert_eq!(ledger.reserve(0, 2, plain(10)), Ok(Start(0, 10)));
    assert_eq!(ledger.pause(0), Err(Refused(7)));
    assert_eq!(ledger.resume(0), Err(Refused(7)));
    assert_eq!(ledger.put(0, 0, &[7; 496]), Ok(Done));
    assert_eq!(ledger.put(0, 1, &[8; 496]), Ok(Done));
    assert_eq!(ledger.complete(0), Ok(Done));
    assert_eq!(ledger.resume(0), Err(Refused(8)));
    assert_eq!(ledger.pause(0), Ok(Done));
    assert_eq!(ledger.entry(0), entry(0x50, 0, 2));
    assert_eq!(ledger.block(0, 1), sealed(0, 1, &[8; 496]));
    assert_eq!(ledger.pause(0), Err(Refused(6)));
    assert_eq!(ledger.show(0, 0, None, buffer), Err(Refused(6)));
    assert_eq!(ledger.offer(1, 9), Err(Refused(10)));
    assert_eq!(ledger.resume(0), Ok(Done));
    assert_eq!(ledger.show(0, 1, None, buffer), Ok(Done));
    assert_eq!(buffer[0], 8);
    assert_eq!(ledger.pause(0), Ok(Done));
    assert_eq!(ledger.release(0), Ok(Done));
    assert_eq!((ledger.returned, ledger.free_count()), (2, 10));
    assert_eq!(ledger.resume(0), Err(Refused(5)));
    assert_eq!(ledger.pause(0), Ok(Done));
    assert_eq!(ledger.entry(0), entry(0x50, 0, 0));
    assert_eq!(ledger.resume(0), Err(Refused(6)));
    assert_eq!(ledger.show(0, 0, None, buffer), Err(Refused(6)));
    assert_eq!(ledger.release(0), Ok(Done));
    assert_eq!(ledger.resume(3), Err(Refused(2)));
    assert_eq!((ledger.granted, ledger.returned), (2, 2));
}

/// A call for one of 3 sheets, a reserve of any kind, an offer, a grow or a release; or a closing. Mostly it is the
/// pharmacist's.
fn random_call(n: usize, random: &mut Random) -> Call {
    let (sheet, k) = (random.within(0, 3) as u32, random.within(0, n) as u32 / 3);
    let mut figure = || random.within(0, n + 2) as u32;
    let placed_at = figures(figure(), figure(), figure() / 4);
    let role = random.one(&[1, 1, 1, 1, 1, 1, 1, 2, 3, 0]);
    let call = match random.within(0, 8) {
        0 => call(Kind::Reserve, sheet, k),
        1 => call(Kind::Release, sheet, 0),
        2 => call(Kind::Offer, sheet, k),
        3 => call(Kind::Grow, sheet, k / 4),
        4 => accept(sheet, placed_at.from, k),
        5 => call(Kind::Close, 0, scratch_words(n) as u32),
        _ => placed(sheet, k, placed_at),
    };
    call.by(role)
}

/// Makes a list of calls, each in a form of it: the card answers as the ledger does, and has its map and its entries.
fn follow(card: &mut Card, form: fn(Call) -> Call, random: &mut Random) {
    let n = card.n;
    let mut ledger = Ledger::fresh(n, 3);
    for _ in 0..2000 {
        let call = form(random_call(n, random));
        let answer = card.call(call, &mut []);
        assert_eq!(Some(answer), ledger.call(call, &mut []), "{n}: {call}");
        assert!(card.map == ledger.map() && card.free == ledger.free_count());
        assert!((0..3).all(|sheet| card.sheets[sheet] == ledger.entry(sheet)));
    }
    assert_eq!(card.free + ledger.granted, n + ledger.returned);
}

/// Lists of reserves, offers, grows, releases and closings, also with a summary kept beside the map (document 02, (j)): it is
/// the map's own in the end.
#[test]
fn the_card_answers_as_the_ledger() {
    for n in [1, 2, 9, 64, 70, 140] {
        let map = Ledger::fresh(n, 3).map();
        let mut card = Card {
            n,
            free: n,
            summary: build(&map, n),
            map,
            sheets: vec![entry(0x41, 0, 0); 3],
            bytes: vec![0; 512 * n],
        };
        let with_summary = &mut card.clone();
        follow(with_summary, Call::with_summary, &mut Random::of(n as u64));
        assert!(with_summary.has_own_summary());
        follow(&mut card, |call| call, &mut Random::of(n as u64));
        card.summary = with_summary.summary.clone();
        assert!(card == *with_summary);
    }
}

/// Document 02, (m): the ledger reads the days from its own payload of place 0, 19 comes after 3 and before 20, and no date
/// shows what is not Complete.
#[test]
fn a_course_has_its_term() {
    let mut ledger = Ledger::fresh(10, 2);
    let buffer = &mut [0; 496];
    let (first, last) = (Some(date(2024, 2, 29)), Some(date(2024, 3, 6)));
    let (before, after) = (Some(date(2024, 2, 28)), Some(date(2024, 3, 7)));
    let none = Some(date(2024, 2, 30));
    let mut days = [7; 496];
    days[..8].copy_from_slice(&[0, 0, 0x22, 0x79, 0, 0, 0x22, 0x7f]);
    assert_eq!(ledger.show(0, 0, none, buffer), Err(Refused(5)));
    assert_eq!(ledger.reserve(0, 2, plain(10)), Ok(Start(0, 10)));
    assert_eq!(ledger.put(0, 0, &days), Ok(Done));
    assert_eq!(ledger.put(0, 1, &[8; 496]), Ok(Done));
    assert_eq!(ledger.show(0, 0, first, buffer), Err(Refused(7)));
    assert_eq!(ledger.complete(0), Ok(Done));
    assert_eq!(ledger.show(0, 2, none, buffer), Err(Refused(3)));
    for (place, shown) in [(0, 7), (1, 8)] {
        for date in [first, last, None] {
            *buffer = [0; 496];
            assert_eq!(ledger.show(0, place, date, buffer), Ok(Done));
            assert_eq!(buffer[8..], [shown; 488]);
        }
        for (date, refused) in [(before, 20), (after, 20), (none, 19)] {
            *buffer = [5; 496];
            assert_eq!(ledger.show(0, place, date, buffer), Err(Refused(refused)));
            assert_eq!(*buffer, [5; 496]);
        }
    }
    assert_eq!(ledger.pause(0), Ok(Done));
    assert_eq!(ledger.show(0, 0, first, buffer), Err(Refused(6)));
}

/// Document 02, (k): "Over a list with unchanging limits from a fresh card no wing ever holds more", whatever else is called.
#[test]
fn no_wing_holds_more_than_its_limit() {
    for seed in 0..20 {
        let random = &mut Random::of(seed);
        let mut limits = [0; 8];
        limits.fill_with(|| random.one(&[0, 1, 5, 20, 70, u32::MAX]));
        let mut ledger = Ledger::fresh(200, 1024);
        let mut refused = 0;
        for _ in 0..2000 {
            let call = random_call(70, random);
            let sheet = 128 * random.within(0, 8) as u32 + call.sheet * 61;
            let call = Call { sheet, ..call };
            let answer = ledger.call(call.with_limits(limits), &mut []);
            refused += (answer == Some(Refused(18))) as usize;
            for (wing, limit) in (0..).zip(limits) {
                assert!(ledger.held_by_wing(wing) <= limit as usize, "{call}");
            }
        }
        assert!(refused > 0);
    }
}

/// The sheet's own places count when it grows, and those of a paused course; limits may change from call to call.
#[test]
fn limits_of_a_wing() {
    let mut ledger = Ledger::fresh(100, 300);
    let mut answer = |call: Call, limit| {
        ledger.call(
            call.with_limits([9, limit, 9, 9, 9, 9, 9, 9]),
            &mut [7; 496],
        )
    };
    let reserve = |k| call(Kind::Reserve, 128, k);
    let grow = |k| call(Kind::Grow, 128, k);
    assert_eq!(answer(reserve(5), 4), Some(Refused(18)));
    assert_eq!(answer(reserve(5), 5), Some(Start(0, 100)));
    assert_eq!(answer(grow(2), 6), Some(Refused(18)));
    assert_eq!(answer(grow(0), 0), Some(Refused(3)));
    assert_eq!(answer(grow(2), 7), Some(Done));
    assert_eq!(answer(call(Kind::Offer, 255, 1), 7), Some(Refused(18)));
    assert_eq!(answer(call(Kind::Offer, 255, 1), 8), Some(Offered(7, 1)));
    assert_eq!(answer(call(Kind::Offer, 256, 9), 0), Some(Offered(7, 9)));
    assert_eq!(answer(accept(127, 7, 9), 0), Some(Start(7, 93)));
    assert_eq!(answer(accept(126, 7, 1), 0), Some(Refused(18)));
    assert_eq!(answer(accept(129, 7, 1), 8), Some(Refused(17)));
    for place in 0..7 {
        assert_eq!(answer(call(Kind::Put, 128, place), 0), Some(Done));
    }
    assert_eq!(answer(call(Kind::Complete, 128, 0), 0), Some(Done));
    assert_eq!(answer(call(Kind::Pause, 128, 0), 0), Some(Done));
    assert_eq!(
        answer(placed(129, 1, figures(9, 100, 1)), 7),
        Some(Refused(18))
    );
    assert_eq!(
        answer(placed(129, 1, figures(9, 101, 1)), 7),
        Some(Refused(15))
    );
    assert_eq!(
        answer(placed(129, 1, figures(9, 100, 1)), 8),
        Some(Start(16, 84))
    );
    assert_eq!(answer(call(Kind::Release, 128, 0), 0), Some(Done));
    assert_eq!(answer(call(Kind::Grow, 129, 1), 1), Some(Refused(18)));
    assert_eq!(answer(call(Kind::Grow, 129, 1), 2), Some(Done));
}

/// Document 02, (l): sheets of every standing are moved in order of their starts, and keep what they hold.
#[test]
fn closing() {
    let mut ledger = Ledger::fresh(20, 6);
    let buffer = &mut [0; 496];
    assert_eq!(ledger.accept(4, 2, 2), Ok(Start(2, 18)));
    assert_eq!(ledger.accept(1, 6, 3), Ok(Start(6, 14)));
    assert_eq!(ledger.accept(0, 12, 1), Ok(Start(12, 8)));
    assert_eq!(ledger.put(4, 1, &[7; 496]), Ok(Done));
    assert_eq!(ledger.put(0, 0, &[8; 496]), Ok(Done));
    assert_eq!(ledger.complete(0), Ok(Done));
    for place in 0..3 {
        assert_eq!(ledger.put(1, place, &[9 + place as u8; 496]), Ok(Done));
    }
    assert_eq!(ledger.complete(1), Ok(Done));
    assert_eq!(ledger.pause(1), Ok(Done));
    assert_eq!(ledger.pause(5), Ok(Done));
    assert_eq!(ledger.offer(2, 8), Err(Refused(10)));
    assert_eq!(ledger.offer(2, 1), Ok(Offered(0, 1)));
    let entries = [
        entry(0x43, 5, 1),
        entry(0x50, 2, 3),
        entry(0x41, 0, 0),
        entry(0x41, 0, 0),
        entry(0x4f, 0, 2),
        entry(0x50, 0, 0),
    ];
    for _ in 0..2 {
        assert_eq!(ledger.close(), Ok(Done));
        assert!((0..6).all(|sheet| ledger.entry(sheet) == entries[sheet]));
        assert_eq!(
            (ledger.granted, ledger.returned, ledger.free_count()),
            (6, 0, 14)
        );
    }
    assert_eq!(ledger.complete(4), Err(Blank(0)));
    assert_eq!(ledger.block(4, 1), sealed(4, 1, &[7; 496]));
    assert_eq!(ledger.show(0, 0, None, buffer), Ok(Done));
    assert_eq!(buffer[0], 8);
    assert_eq!(ledger.resume(1), Ok(Done));
    assert_eq!(ledger.show(1, 2, None, buffer), Ok(Done));
    assert_eq!(buffer[0], 11);
    assert_eq!(ledger.accept(2, 0, 1), Err(Refused(17)));
    assert_eq!(ledger.offer(2, 15), Err(Refused(10)));
    assert_eq!(ledger.offer(2, 14), Ok(Offered(6, 14)));
}

/// A power cut: Complete and paused courses are those that were saved, and an Open sheet has what the card has in its places.
#[test]
fn power_cut() {
    let mut saved = Ledger::fresh(8, 3);
    assert_eq!(saved.accept(0, 0, 1), Ok(Start(0, 8)));
    assert_eq!(saved.put(0, 0, &[7; 496]), Ok(Done));
    assert_eq!(saved.complete(0), Ok(Done));
    assert_eq!(saved.accept(1, 1, 2), Ok(Start(1, 7)));
    let mut later = saved.clone();
    assert_eq!(later.put(1, 1, &[8; 496]), Ok(Done));
    assert_eq!(later.pause(0), Ok(Done));
    assert_eq!(later.accept(2, 5, 1), Ok(Start(5, 3)));
    let cut = Ledger::cut(&saved, |sheet, place| later.payload(sheet, place).cloned());
    assert_eq!(cut.entry(0), entry(0x43, 0, 1));
    assert_eq!(cut.block(0, 0), sealed(0, 0, &[7; 496]));
    assert_eq!(cut.entry(1), entry(0x4f, 1, 2));
    assert_eq!(cut.block(1, 0), [0; 512]);
    assert_eq!(cut.block(1, 1), sealed(1, 1, &[8; 496]));
    assert_eq!(cut.entry(2), entry(0x41, 0, 0));
}
