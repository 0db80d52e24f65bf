//! Placed reserves with figures of every kind (document 02, (a)), on maps of every kind.

use crate::beside::{Beside, Compared};
use crate::counts::Counts;
use crate::figures::{any_figures, STEPS};
use crate::lengths::one;
use crate::lists::small_size;
use crate::spaces;
use bitwise::blocks::{figures, least_fit, plain, words_of, FREE, TAKEN};
use bitwise::call::{call, placed as reserve, Call, Kind};
use bitwise::card::{entry, Card};
use bitwise::random::{runs, words, Random};

/// Reserves on a small card.
pub fn placed(seed: u64, margin: usize, counts: &mut Counts) -> Result<(), String> {
    let mut random = Random::of(seed);
    let (n, _) = small_size(&mut random);
    reserves(n, Compared::All, margin, random, counts)
}

/// Reserves on a card of full size.
pub fn placed_full(seed: u64, margin: usize, counts: &mut Counts) -> Result<(), String> {
    let mut random = Random::of(seed);
    let n = random.one(&[262144, 262143, 262081]);
    reserves(n, Compared::Part, margin, random, counts)
}

/// A card of n blocks with a map of some kind and one sheet, which is Absent. The other taken blocks are nobody's: what the
/// figures admit hangs on the map alone.
pub fn card(n: usize, random: &mut Random) -> Card {
    let (kind, seed) = (random.within(0, 10), random.within(0, 100000) as u64);
    let mut map = match kind {
        0..=5 => words(words_of(n), kind, seed),
        6 => runs(words_of(n), 16, seed),
        7 => runs(words_of(n), 128, seed),
        8 => runs(words_of(n), 1000, seed),
        _ => vec![FREE; 64 * words_of(n)],
    };
    if random.chance(3, 4) {
        map[n..].fill(TAKEN);
    }
    Card {
        n,
        free: map[..n].iter().filter(|&&block| block == FREE).count(),
        map,
        sheets: vec![entry(0x41, 0, 0)],
        bytes: vec![0x5a; 512 * n],
        summary: Vec::new(),
    }
}

/// Some reserves on a card, of which each that is accepted is released again.
fn reserves(
    n: usize,
    compared: Compared,
    margin: usize,
    mut random: Random,
    counts: &mut Counts,
) -> Result<(), String> {
    let mut beside = Beside::new(card(n, &mut random), margin, compared);
    let mut log = format!("a card of {n} blocks, {} of them free\n", beside.card.free);
    for _ in 0..12 {
        let most = random.one(&[3, 3, 10, 70, n + 2]);
        let k = match random.within(0, 16) {
            0 => random.one(&[0, n as u32 + 1, u32::MAX - 1, u32::MAX]),
            _ => random.within(1, most) as u32,
        };
        let reserve = reserve(0, k, any_figures(n, k, &mut random));
        let mut calls = vec![reserve];
        kinds(&beside.card, reserve, counts);
        if beside.card.first(reserve).is_none() {
            calls.push(call(Kind::Release, 0, 0));
        }
        for call in calls {
            log += &format!("    {call}\n");
            let result = beside.call(call, counts);
            result.map_err(|error| format!("{log}the last of these: {error}"))?;
        }
    }
    Ok(())
}

const BEHIND: &str = "a fit behind the plain one";
const SAME: &str = "the plain fit";
const ONLY_PLAIN: &str = "no fit, and there is a plain one";
const NEITHER: &str = "no fit, nor a plain one";
const NO_STEP: &str = "step is 0, and no other reason";
const EMPTY: &str = "from is not below before, and no other reason";
const PAST_N: &str = "before is above n, and no other reason";
const WITHIN_WORDS: &str = "a fit in a window that starts and ends inside words";
const ACROSS_WORDS: &str = "a fit across words in such a window";
const JUST_FITS: &str = "a window of k blocks with a fit";
const LONG_SUM: &str = "from + k of 33 bits";
const LARGE_STEP: &str = "a step above n with a fit";
const LARGEST: &str = "the largest step with a fit";

/// What must have been met.
pub fn expected() -> impl Iterator<Item = String> {
    let some = [
        BEHIND,
        SAME,
        ONLY_PLAIN,
        NEITHER,
        NO_STEP,
        EMPTY,
        PAST_N,
        WITHIN_WORDS,
        ACROSS_WORDS,
        JUST_FITS,
        LONG_SUM,
        LARGE_STEP,
        LARGEST,
    ];
    let some = some.into_iter().chain(spaces::ENDS);
    let steps = STEPS.iter().map(|step| with_step(*step));
    some.map(str::to_string).chain(steps)
}

fn with_step(step: u32) -> String {
    format!("a fit at a multiple of {step} that is not 0")
}

/// Counts what a reserve of a block or more is an example of.
pub fn kinds(card: &Card, call: Call, counts: &mut Counts) {
    let (k, step) = (call.number as usize, call.figures.step);
    let [from, before] = [call.figures.from, call.figures.before].map(|figure| figure as usize);
    if k == 0 {
        return;
    }
    let reasons = [
        (step == 0, NO_STEP),
        (from >= before, EMPTY),
        (before > card.n, PAST_N),
    ];
    let held: Vec<&str> = reasons
        .into_iter()
        .filter(|(holds, _)| *holds)
        .map(|(_, reason)| reason)
        .collect();
    if from + k > u32::MAX as usize {
        counts.note_kind(LONG_SUM);
    }
    match held[..] {
        [] => kinds_of_fit(card, call, counts),
        [reason] => counts.note_kind(reason),
        _ => {}
    }
}

/// Where a reserve that comes to the search has its fit, beside the one of the plain reserve.
fn kinds_of_fit(card: &Card, call: Call, counts: &mut Counts) {
    let (n, k, step) = (card.n, call.number as usize, call.figures.step);
    let [from, before] = [call.figures.from, call.figures.before].map(|figure| figure as usize);
    let map = &card.map[..n];
    let lowest = least_fit(map, plain(n), k);
    let Some(start) = least_fit(map, call.figures, k) else {
        return counts.note_kind(if lowest.is_some() {
            ONLY_PLAIN
        } else {
            NEITHER
        });
    };
    spaces::ends(map, start, call, counts);
    let inside_words = from % 64 != 0 && before % 64 != 0;
    let crosses = start / 64 != (start + k - 1) / 64;
    let kinds = [
        (Some(start) == lowest, SAME),
        (Some(start) != lowest, BEHIND),
        (inside_words, WITHIN_WORDS),
        (inside_words && crosses, ACROSS_WORDS),
        (before == from + k, JUST_FITS),
        (step as usize > n, LARGE_STEP),
        (step == u32::MAX, LARGEST),
        (start > 0, &with_step(step)),
    ];
    for (_, kind) in kinds.iter().filter(|(holds, _)| *holds) {
        counts.note_kind(kind);
    }
}

/// All maps of up to 5 blocks, with all numbers up to n + 1 and the largest for k and the figures.
pub fn all_figures(margin: usize, counts: &mut Counts) -> Result<(), String> {
    for n in 1..=5 {
        let numbers = || (0..=n as u32 + 1).chain([u32::MAX]);
        for blocks in 0..1 << n {
            let card = card_with(n, 0, blocks);
            for (k, step) in numbers().flat_map(|k| numbers().map(move |step| (k, step))) {
                for (from, before) in numbers().flat_map(|a| numbers().map(move |b| (a, b))) {
                    let figures = figures(from, before, step);
                    one(&card, reserve(0, k, figures), margin, counts)?;
                }
            }
        }
    }
    across_words(margin, counts)
}

/// All choices of the last 6 of 66 blocks, the others taken: windows and runs on both sides of the end of a word.
fn across_words(margin: usize, counts: &mut Counts) -> Result<(), String> {
    let windows = (59..=66).flat_map(|from| (from..=67).map(move |before| (from, before)));
    let windows: Vec<(u32, u32)> = windows.collect();
    for blocks in 0..1 << 6 {
        let card = card_with(66, 60, blocks);
        for (from, before) in &windows {
            for step in [1, 2, 3, 4, 7, 31, 61, 62, 63, 64, 65, 66] {
                for k in 1..=6 {
                    let figures = figures(*from, *before, step);
                    one(&card, reserve(0, k, figures), margin, counts)?;
                }
            }
        }
    }
    Ok(())
}

/// A card of n blocks with an Absent sheet. Those from `first` on are free where a number has a bit, the others are taken.
pub fn card_with(n: usize, first: usize, bits: usize) -> Card {
    let map: Vec<bool> = (0..64 * words_of(n))
        .map(|b| b >= first && bits >> (b - first).min(63) & 1 == 1)
        .collect();
    Card {
        n,
        free: bits.count_ones() as usize,
        map,
        sheets: vec![entry(0x41, 0, 0)],
        bytes: vec![0x5a; 512 * n],
        summary: Vec::new(),
    }
}
