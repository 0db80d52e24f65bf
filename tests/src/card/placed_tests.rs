//! Placed reserves of a card (document 02, (a)), and the space behind their starts (document 02, (b)).

use super::*;
use crate::call::{call, placed};

/// A fresh card of n blocks and 3 sheets.
fn fresh_card(n: usize) -> Card {
    let mut card = Card {
        n: 0,
        free: 0,
        map: vec![TAKEN; 64 * words_of(n)],
        sheets: vec![ABSENT; 3],
        bytes: vec![7; BLOCK * n],
        summary: Vec::new(),
    };
    assert_eq!(card.fresh(n), Done);
    card
}

/// A placed reserve of sheet 1 with k and figures, on a card on which sheet 0 has the blocks 0 to 9, and the free count is
/// what it was or another.
fn reserved(k: u32, (from, before, step): (u32, u32, u32), free: usize) -> (Answer, Card) {
    let mut card = fresh_card(100);
    card.call(call(Kind::Reserve, 0, 10), &mut []);
    card.free = free;
    let answer = card.call(placed(1, k, figures(from, before, step)), &mut []);
    (answer, card)
}

/// Document 02, (a): "15 if step is 0, from ≥ before or before > n; it comes after 3". The limit is 2^32 - 1 (document 02,
/// (k)), of which the wing holds 10.
#[test]
fn answers_of_placed_reserves() {
    const MAX: u32 = u32::MAX;
    let rows = [
        (0, (0, 100, 0), 90, Refused(3)),
        (0, (7, 7, 1), 90, Refused(3)),
        (0, (0, 101, 1), 90, Refused(3)),
        (1, (0, 100, 0), 90, Refused(15)),
        (1, (7, 7, 1), 90, Refused(15)),
        (1, (8, 7, 1), 90, Refused(15)),
        (1, (MAX, MAX, MAX), 90, Refused(15)),
        (1, (0, 101, 1), 90, Refused(15)),
        (1, (0, MAX, 1), 90, Refused(15)),
        (MAX, (0, 100, 0), 90, Refused(15)),
        (91, (0, 101, 1), 0, Refused(15)),
        (91, (0, 100, 1), 90, Refused(10)),
        (91, (0, 100, 1), 0, Refused(10)),
        (MAX - 10, (1, 100, MAX), 90, Refused(10)),
        (MAX - 9, (1, 100, MAX), 90, Refused(18)),
        (1, (0, 100, 100), 90, Refused(10)),
        (1, (0, 100, MAX), 90, Refused(10)),
        (1, (0, 10, 1), 90, Refused(10)),
        (2, (98, 99, 1), 90, Refused(10)),
        (3, (11, 90, 8), 2, Refused(4)),
    ];
    for (k, figures, free, refusal) in rows {
        let (answer, card) = reserved(k, figures, free);
        assert_eq!(answer, refusal, "{k} blocks with {figures:?}");
        let same = (card.free, card.sheets[1]) == (free, ABSENT);
        assert!(same && survey(&card.map, 100).free == 90);
    }
}

/// Document 02, (a): the lowest start that the figures admit; all else as with a plain reserve.
#[test]
fn starts_of_placed_reserves() {
    let rows = [
        (5, (0, 100, 1), 10),
        (5, (0, 100, 8), 16),
        (5, (16, 21, 8), 16),
        (5, (17, 100, 8), 24),
        (90, (10, 100, 10), 10),
        (1, (99, 100, 99), 99),
        (37, (0, 100, 63), 63),
    ];
    for (k, figures, start) in rows {
        let (answer, card) = reserved(k, figures, 90);
        let (end, length) = (start + k as usize, k as usize);
        // All blocks from 10 on were free, also those from `before` on.
        assert_eq!(
            answer,
            Start(start, 100 - start),
            "{k} blocks with {figures:?}"
        );
        assert_eq!(card.sheets[1], entry(OPEN, start as u32, k));
        assert_eq!((card.n, card.free), (100, 90 - length));
        let taken = |b: usize| b < 10 || (start..end).contains(&b);
        assert!((0..100).all(|b| card.map[b] != taken(b)));
        let byte = |b: usize| if taken(b) { 0 } else { 7 };
        assert!((0..51200).all(|i| card.bytes[i] == byte(i / BLOCK)));
    }
}

/// Document 02, (a): "The plain reserve is the one with 0, n and 1".
#[test]
fn a_plain_reserve_is_the_one_with_0_n_and_1() {
    for k in (0..=71).chain([u32::MAX]) {
        let mut cards = [fresh_card(70), fresh_card(70)];
        for card in &mut cards {
            card.call(call(Kind::Reserve, 0, 3), &mut []);
            card.call(call(Kind::Reserve, 1, 20), &mut []);
            card.call(call(Kind::Release, 0, 0), &mut []);
        }
        let reserve = cards[0].call(call(Kind::Reserve, 2, k), &mut []);
        let with_figures = cards[1].call(placed(2, k, figures(0, 70, 1)), &mut []);
        assert_eq!(reserve, with_figures);
        assert!(cards[0] == cards[1]);
    }
}

/// Document 02, (b): the free blocks from the start to the next taken block or n, measured before the marking. Bits from n on
/// are never read as free, and the free count is not looked at.
#[test]
fn the_space_behind_a_start() {
    let mut card = fresh_card(100);
    card.map[100..].fill(FREE);
    card.free = 40;
    for (call, answer) in [
        (call(Kind::Search, 0, 1), Start(0, 100)),
        (call(Kind::Search, 0, 100), Start(0, 100)),
        (placed(0, 7, figures(60, 67, 5)), Start(60, 40)),
        (call(Kind::Search, 0, 1), Start(0, 60)),
        (call(Kind::Search, 0, 61), Refused(10)),
        (placed(1, 1, figures(33, 34, 33)), Start(33, 27)),
        (call(Kind::Reserve, 2, 30), Start(0, 33)),
        (call(Kind::Search, 0, 1), Start(30, 3)),
        (call(Kind::Search, 0, 26), Start(34, 26)),
        (call(Kind::Search, 0, 27), Start(67, 33)),
    ] {
        assert_eq!(card.call(call, &mut []), answer, "{call}");
    }
}
