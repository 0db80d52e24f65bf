//! Closing the gaps of a card (document 02, (l)).

use super::*;
use crate::call::{accept, call};
use crate::random::Random;
use crate::summary::build;

/// A sound card of n blocks whose sheets have these marks and extents; every byte of block b is b, modulo 251.
fn card(n: usize, sheets: &[(u32, usize, usize)]) -> Card {
    let mut map = fresh(n, words_of(n));
    for &(_, start, length) in sheets {
        mark(&mut map, start, start + length, TAKEN);
    }
    let entries = sheets.iter();
    let entries = entries.map(|&(mark, start, length)| entry(mark, start as u32, length as u32));
    Card {
        n,
        free: map.iter().filter(|&&block| block == FREE).count(),
        sheets: entries.collect(),
        bytes: (0..BLOCK * n).map(|at| (at / BLOCK % 251) as u8).collect(),
        summary: build(&map, n),
        map,
    }
}

fn close_of(card: &Card) -> Call {
    call(Kind::Close, 0, scratch_words(card.n) as u32)
}

/// What a byte of each block is.
fn contents(card: &Card) -> Vec<u8> {
    let blocks = card.bytes.chunks(BLOCK);
    blocks
        .map(|block| {
            assert!(block.iter().all(|byte| *byte == block[0]));
            block[0]
        })
        .collect()
}

/// Sheets whose numbers are in another order than their starts, of every standing: each keeps its mark, its length and its
/// bytes, and the blocks behind them keep theirs.
#[test]
fn a_card_written_out() {
    let mut card = card(
        12,
        &[
            (COMPLETE, 9, 2),
            (ABSENT.mark, 0, 0),
            (OPEN, 1, 3),
            (PAUSED, 6, 2),
            (PAUSED, 0, 0),
        ],
    );
    assert_eq!(card.call(close_of(&card), &mut []), Done);
    let sheets = [
        entry(COMPLETE, 5, 2),
        ABSENT,
        entry(OPEN, 0, 3),
        entry(PAUSED, 3, 2),
        entry(PAUSED, 0, 0),
    ];
    assert_eq!(card.sheets, sheets);
    assert_eq!(contents(&card), [1, 2, 3, 6, 7, 9, 10, 7, 8, 9, 10, 11]);
    assert_eq!(
        card.map,
        (0..64).map(|b| (7..12).contains(&b)).collect::<Vec<_>>()
    );
    assert_eq!((card.n, card.free), (12, 5));
}

/// Some extents in a random order on a card of n blocks.
fn some_sheets(n: usize, random: &mut Random) -> Vec<(u32, usize, usize)> {
    let (mut sheets, mut start) = (vec![(ABSENT.mark, 0, 0), (PAUSED, 0, 0)], 0);
    while start < n {
        start += random.within(0, 5);
        let length = random.within(1, 9);
        if start + length <= n {
            let mark = random.one(&[OPEN, COMPLETE, PAUSED]);
            let at = random.within(0, sheets.len() + 1);
            sheets.insert(at, (mark, start, length));
        }
        start += length;
    }
    sheets
}

/// "Afterwards every sheet has its old mark, length and payloads, the free count is unchanged"; starts keep their order, all
/// free blocks are one run at the end, and a second closing changes nothing.
#[test]
fn what_stays() {
    for seed in 0..300 {
        let random = &mut Random::of(seed);
        let n = random.within(1, 260);
        let before = card(n, &some_sheets(n, random));
        let mut after = before.clone();
        assert_eq!(after.call(close_of(&before), &mut []), Done);
        let held = n - before.free;
        assert_eq!((after.n, after.free), (n, before.free));
        assert!(all(&after.map, 0, held, TAKEN) && all(&after.map, held, n, FREE));
        assert!(all(&after.map, n, after.map.len(), TAKEN));
        let (old, new) = (contents(&before), contents(&after));
        assert_eq!(old[held..], new[held..]);
        for (sheet, was) in before.sheets.iter().enumerate() {
            let is = after.sheets[sheet];
            assert_eq!((is.mark, is.length), (was.mark, was.length));
            let blocks = |e: Entry| e.start as usize..(e.start + e.length) as usize;
            assert_eq!(new[blocks(is)], old[blocks(*was)]);
            for (other, behind) in before.sheets.iter().enumerate() {
                if was.length > 0 && behind.length > 0 && was.start < behind.start {
                    assert!(is.start + is.length <= after.sheets[other].start);
                }
            }
        }
        let mut again = after.clone();
        assert_eq!(again.call(close_of(&after), &mut []), Done);
        assert!(again == after);
    }
}

/// "A plain reserve that comes to the search next [..] finds no fit exactly when k exceeds the free count. An older offer may
/// now get 17."
#[test]
fn reserves_after_a_closing() {
    for seed in 0..100 {
        let random = &mut Random::of(seed);
        let n = random.within(2, 100);
        let mut sheets = some_sheets(n, random);
        sheets.push((ABSENT.mark, 0, 0));
        let sheet = sheets.len() as u32 - 1;
        let mut card = card(n, &sheets);
        let longest = survey(&card.map, n).longest;
        assert_eq!(card.call(close_of(&card), &mut []), Done);
        for k in 1..=n as u32 + 1 {
            let row = card.first(call(Kind::Reserve, sheet, k));
            let refused = (k as usize > card.free).then_some(Row::NoFit);
            assert_eq!(row, refused, "{k} blocks");
        }
        let held = (n - card.free) as u32;
        if held > 0 && longest > 0 {
            assert_eq!(
                card.first(accept(sheet, held - 1, 1)),
                Some(Row::RunNotFree)
            );
        }
    }
}

/// "Refuses an unsound state with 4", and row 1 before it, also for the scratch of (h); nothing changes then.
#[test]
fn refusals() {
    let whole = card(70, &[(OPEN, 3, 2), (COMPLETE, 60, 9)]);
    let refused = |change: fn(&mut Card), scratch: u32| {
        let mut card = whole.clone();
        change(&mut card);
        let before = card.clone();
        let answer = card.call(call(Kind::Close, 0, scratch), &mut []);
        assert!(card == before);
        answer
    };
    let unsound: [fn(&mut Card); 6] = [
        |card| card.free -= 1,
        |card| card.map[0] = TAKEN,
        |card| card.map[70] = FREE,
        |card| card.sheets[0].start = 60,
        |card| card.sheets[0].length = 0,
        |card| card.sheets[1].mark = 0,
    ];
    for change in unsound {
        assert_eq!(refused(change, 2), Refused(4));
        assert_eq!(refused(change, 1), Refused(1));
    }
    let lengths: [fn(&mut Card); 5] = [
        |card| card.n = 0,
        |card| card.free = 71,
        |card| card.sheets.clear(),
        |card| card.map.truncate(64),
        |card| card.bytes.truncate(35839),
    ];
    for change in lengths {
        assert_eq!(refused(change, 2), Refused(1));
    }
    for scratch in [0, 1, 3, 64, u32::MAX] {
        assert_eq!(refused(|_| (), scratch), Refused(1));
    }
}

/// "A lent summary is built anew", whatever it was.
#[test]
fn summaries() {
    let whole = card(100, &[(OPEN, 3, 2), (COMPLETE, 60, 9)]);
    let close = close_of(&whole).with_summary();
    for summary in [whole.summary.clone(), vec![0; 9], vec![u32::MAX; 9]] {
        let mut card = whole.clone();
        card.summary = summary;
        assert_eq!(card.call(close, &mut []), Done);
        assert_eq!(card.summary, build(&fresh_behind(11, 100), 100));
    }
    let mut card = whole.clone();
    card.summary.push(0);
    assert_eq!(card.call(close, &mut []), Refused(1));
    assert_eq!(card.first(close), Some(Row::SummaryLength));
}

/// A map whose first blocks are taken.
fn fresh_behind(held: usize, n: usize) -> Vec<bool> {
    let mut map = fresh(n, words_of(n));
    mark(&mut map, 0, held, TAKEN);
    map
}
