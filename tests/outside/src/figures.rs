//! Figures of placed reserves (document 02, (a)): from, before and step, of every kind.

use bitwise::blocks::{all, figures, Figures, FREE};
use bitwise::card::Card;
use bitwise::random::Random;

/// Steps within a word, of a word, across words and of many words.
pub const STEPS: [u32; 10] = [1, 2, 3, 7, 8, 63, 64, 65, 100, 4096];

/// Any figures for a reserve of k blocks on a card of n: mostly such that row 15 does not hold.
pub fn any_figures(n: usize, k: u32, random: &mut Random) -> Figures {
    // An n out of limits has figures too.
    let n = n.clamp(1, 262145) as u32;
    let (from, before) = match random.within(0, 16) {
        0..=4 => (0, n),
        5..=9 => inside(n, random),
        10..=12 => as_long_as(n, k, random),
        _ => outside(n, random),
    };
    figures(from, before, any_step(n, random))
}

fn any_step(n: u32, random: &mut Random) -> u32 {
    match random.within(0, 32) {
        0 => 0,
        1..=2 => random.one(&[n - 1, n, n + 1, 2 * n, 1 << 31, u32::MAX - 1, u32::MAX]),
        3..=6 => random.within(1, n as usize + 1) as u32,
        _ => random.one(&STEPS),
    }
}

/// A window that starts and ends anywhere on the card.
fn inside(n: u32, random: &mut Random) -> (u32, u32) {
    let from = random.within(0, n as usize);
    let before = random.within(from + 1, n as usize + 1);
    (from as u32, before as u32)
}

/// A window of k blocks, of one more or of one less.
fn as_long_as(n: u32, k: u32, random: &mut Random) -> (u32, u32) {
    let from = random.within(0, n as usize) as u32;
    let end = from.saturating_add(k);
    (
        from,
        random.one(&[end, end, end.saturating_add(1), end.saturating_sub(1)]),
    )
}

/// A window that holds nothing, that ends behind n, or with one of the largest numbers.
fn outside(n: u32, random: &mut Random) -> (u32, u32) {
    let some = random.within(0, n as usize + 1) as u32;
    let large = [0, 1, n, u32::MAX - 1, u32::MAX];
    match random.within(0, 4) {
        0 => (some, some),
        1 => (some + 1, some),
        2 => (some, random.one(&[n + 1, n + 1, n + 64, u32::MAX])),
        _ => (random.one(&large), random.one(&large)),
    }
}

/// Where some run of k free blocks of the card starts.
pub fn some_start(card: &Card, k: usize, random: &mut Random) -> usize {
    let starts: Vec<usize> = (0..=card.n - k)
        .filter(|&start| all(&card.map, start, start + k, FREE))
        .collect();
    random.one(&starts)
}

/// Figures that some run of k free blocks of the card has: a window that it lies in, and a step whose multiple is its start.
pub fn admitting(card: &Card, k: usize, random: &mut Random) -> Figures {
    let start = some_start(card, k, random);
    let steps: Vec<usize> = (1..=card.n).filter(|step| start % step == 0).collect();
    let from = random.within(0, start + 1);
    let before = random.within(start + k, card.n + 1);
    figures(from as u32, before as u32, random.one(&steps) as u32)
}
