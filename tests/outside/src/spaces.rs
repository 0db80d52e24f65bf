//! The space behind a start (document 02, (b)): over whole cards of full size, and behind the starts that a step of 4,096
//! leaves.

use crate::beside::{Beside, Compared};
use crate::counts::Counts;
use crate::placed::kinds;
use bitwise::blocks::{figures, space, words_of, Figures, FREE, TAKEN};
use bitwise::call::{call, placed, Call, Kind};
use bitwise::card::{entry, Card};
use bitwise::random::Random;

const AT_N: &str = "a space that ends at n";
const INSIDE_WORD: &str = "a space that ends at a taken block inside a word";
const AT_WORD: &str = "a space that ends at a word's end before n";
const OVER_WORDS: &str = "a space over the ends of two words or more";
const PAST_BEFORE: &str = "a space that goes past before";
const LONGER: &str = "a space longer than k";
const AS_LONG: &str = "a space of k blocks";

/// Where spaces must have ended.
pub const ENDS: [&str; 7] = [
    AT_N,
    INSIDE_WORD,
    AT_WORD,
    OVER_WORDS,
    PAST_BEFORE,
    LONGER,
    AS_LONG,
];

/// Counts where the space behind the start of a placed reserve ends.
pub fn ends(map: &[bool], start: usize, call: Call, counts: &mut Counts) {
    let (n, k) = (map.len(), call.number as usize);
    let end = start + space(map, start);
    let kinds = [
        (end == n, AT_N),
        (end < n && end % 64 != 0, INSIDE_WORD),
        (end < n && end % 64 == 0, AT_WORD),
        (end / 64 >= start / 64 + 2, OVER_WORDS),
        (end > call.figures.before as usize, PAST_BEFORE),
        (end > start + k, LONGER),
        (end == start + k, AS_LONG),
    ];
    for (_, kind) in kinds.iter().filter(|(holds, _)| *holds) {
        counts.note_kind(kind);
    }
}

/// Searches on cards of full size, whose blocks are taken before a start, free from there to an end, and free behind it.
pub fn whole_cards(margin: usize, counts: &mut Counts) -> Result<(), String> {
    for n in [262144, 262081] {
        let places = [
            0,
            1,
            63,
            64,
            65,
            4096,
            131072,
            n - 65,
            n - 64,
            n - 2,
            n - 1,
            n,
        ];
        let pairs = places.iter().flat_map(|s| places.map(|end| (*s, end)));
        for (start, end) in pairs.filter(|(start, end)| start < end) {
            search(n, start, end, margin, counts)
                .map_err(|error| format!("{n} blocks, free from {start} to {end}: {error}"))?;
        }
    }
    Ok(())
}

/// Searches for one block, for as many as there are before the taken one, and for one more.
fn search(
    n: usize,
    start: usize,
    end: usize,
    margin: usize,
    counts: &mut Counts,
) -> Result<(), String> {
    let card = Card {
        n,
        free: n,
        map: (0..64 * words_of(n))
            .map(|b| b >= start && b != end)
            .collect(),
        sheets: Vec::new(),
        // A search is lent no card.
        bytes: Vec::new(),
        summary: Vec::new(),
    };
    let mut beside = Beside::new(card, margin, Compared::All);
    for k in [1, end - start, end - start + 1] {
        beside.call(call(Kind::Search, 0, k as u32), counts)?;
    }
    Ok(())
}

/// Placed reserves with a step of 4,096 on a card of some thousand blocks.
pub fn steps(seed: u64, margin: usize, counts: &mut Counts) -> Result<(), String> {
    let mut random = Random::of(seed);
    let n = random.one(&[4097, 4160, 4161, 8192, 8193, 12000]);
    reserves(n, 8, Compared::All, margin, random, counts)
}

/// The same on a card of full size.
pub fn steps_full(seed: u64, margin: usize, counts: &mut Counts) -> Result<(), String> {
    let mut random = Random::of(seed);
    let n = random.one(&[262144, 262143, 262081]);
    reserves(n, 100, Compared::Part, margin, random, counts)
}

const STEP: usize = 4096;

/// Lengths of runs, and numbers of blocks wanted: around a word and around the step.
const LENGTHS: [usize; 10] = [1, 2, 63, 64, 65, 100, 4095, 4096, 4097, 8192];

/// Some reserves, of which each that is accepted is released again.
fn reserves(
    n: usize,
    many: usize,
    compared: Compared,
    margin: usize,
    mut random: Random,
    counts: &mut Counts,
) -> Result<(), String> {
    let mut beside = Beside::new(card(n, &mut random), margin, compared);
    let mut log = format!("a card of {n} blocks, {} of them free\n", beside.card.free);
    for _ in 0..many {
        let k = random.one(&LENGTHS) as u32;
        let reserve = placed(0, k, any_window(n, &mut random));
        let mut calls = vec![reserve];
        kinds(&beside.card, reserve, counts);
        if beside.card.first(reserve).is_none() {
            calls.push(call(Kind::Release, 0, 0));
        }
        for call in calls {
            log += &format!("    {call}\n");
            let result = beside.call(call, counts);
            result.map_err(|error| format!("{log}the last of these: {error}"))?;
        }
    }
    Ok(())
}

/// A card with one sheet, which is Absent, and a free run at each multiple of the step: most begin there or before it, some
/// behind it, and they end anywhere. The taken blocks are nobody's.
fn card(n: usize, random: &mut Random) -> Card {
    let mut map = vec![TAKEN; 64 * words_of(n)];
    for multiple in (0..n).step_by(STEP) {
        let start = match random.within(0, 8) {
            0 => multiple + random.one(&[1, 63, 64]),
            1 => multiple.saturating_sub(random.one(&[1, 64, 100])),
            _ => multiple,
        };
        let end = multiple + random.one(&LENGTHS);
        map[start.min(n)..end.max(start).min(n)].fill(FREE);
    }
    Card {
        n,
        free: map.iter().filter(|&&block| block == FREE).count(),
        map,
        sheets: vec![entry(0x41, 0, 0)],
        bytes: vec![0x5a; 512 * n],
        summary: Vec::new(),
    }
}

/// A window that starts at a multiple of the step or a block beside it, or anywhere, and ends anywhere or at n.
fn any_window(n: usize, random: &mut Random) -> Figures {
    let multiple = random.within(0, n.div_ceil(STEP)) * STEP;
    let any = random.within(0, n);
    let from = random.one(&[
        0,
        any,
        multiple,
        multiple.saturating_sub(1),
        (multiple + 1).min(n - 1),
    ]);
    let near = (from + random.one(&LENGTHS)).min(n);
    let before = random.within(from + 1, n + 1);
    let before = random.one(&[n, n, near, before]);
    figures(from as u32, before as u32, STEP as u32)
}
