//! Summaries beside the map (document 02, (j)): what a false one leaves open of a reserve, and the build and the check of
//! summaries of every size.

use crate::beside::{Beside, Compared};
use crate::counts::Counts;
use crate::lengths::one;
use crate::library::Outcome;
use crate::placed;
use crate::spoiled::spoil;
use bitwise::call::{call, Call, Kind, Search, CALLS};
use bitwise::card::Card;
use bitwise::random::Random;
use bitwise::summary::{build, summary_numbers};

/// Where a false summary leaves open how the search of a reserve ends: the call with the end that the library came to, which is
/// none, or a start that may be granted. With 4, for the count, no start is told; the map must have one then.
pub fn settled(card: &Card, call: Call, outcome: Outcome) -> Result<Call, String> {
    if !matches!(outcome.number, 0 | 10) || !card.leaves_search_open(call) {
        return Ok(call);
    }
    let found = (outcome.number == 0).then_some(outcome.first as usize);
    match found {
        Some(start) if !card.may_grant(call, start) => Err(format!(
            "by a false summary it granted a run from block {start} on, which is no fit"
        )),
        _ => Ok(call.with_search(Search::Ended(found))),
    }
}

const BUILD: Call = call(Kind::SummaryBuild, 0, 0);
const CHECK: Call = call(Kind::SummaryCheck, 0, 0);

/// Every number of blocks up to 600, and those about which the number of words comes to a power of two and goes past it.
fn sizes() -> impl Iterator<Item = usize> {
    let words = [16, 32, 64, 128, 512, 1024];
    let about = words.into_iter().flat_map(|w| {
        let n = 64 * w;
        [n - 64, n - 63, n - 1, n, n + 1, n + 63, n + 64, n + 65]
    });
    (1..=600).chain(about)
}

/// Numbers of blocks of the largest cards.
const LARGEST: [usize; 8] = [
    262144, 262143, 262081, 262080, 196608, 131073, 131072, 131071,
];

/// Summaries of cards of every size.
pub fn every_size(seed: u64, margin: usize, counts: &mut Counts) -> Result<(), String> {
    let random = &mut Random::of(seed);
    for n in sizes() {
        on_map(n, random, margin, counts)?;
    }
    Ok(())
}

/// Summaries of the largest cards.
pub fn largest(seed: u64, margin: usize, counts: &mut Counts) -> Result<(), String> {
    let random = &mut Random::of(seed);
    for n in LARGEST {
        on_map(n, random, margin, counts)?;
    }
    Ok(())
}

/// A map of some kind, with bits from n on in some cases, and a summary that held something before: it is checked, built and
/// checked again; and so are some others, of which a few are the map's own after all. No call is lent the card.
fn on_map(n: usize, random: &mut Random, margin: usize, counts: &mut Counts) -> Result<(), String> {
    let mut card = placed::card(n, random);
    card.bytes = Vec::new();
    card.summary = vec![random.draw() as u32; summary_numbers(n)];
    let mut beside = Beside::new(card, margin, Compared::All);
    let about = |error| format!("n {n}: {error}");
    for call in [CHECK, BUILD, CHECK] {
        beside.call(call, counts).map_err(about)?;
    }
    beside.summary_is_own().map_err(about)?;
    for _ in 0..4 {
        let (kind, summary) = spoil(&beside.card, random);
        beside.lend_summary(summary);
        let result = beside.call(CHECK, counts);
        result.map_err(|error| format!("n {n}, {kind}: {error}"))?;
    }
    beside.call(BUILD, counts).map_err(about)?;
    wrong_lengths(&beside.card, random, margin, counts)
}

/// No numbers, one less and one more, a group less and more, and the lengths of the summaries of other maps.
fn wrong_lengths(
    card: &Card,
    random: &mut Random,
    margin: usize,
    counts: &mut Counts,
) -> Result<(), String> {
    let right = card.summary.len();
    let lengths = [
        0,
        1,
        right - 1,
        right + 1,
        right - 3,
        right + 3,
        right / 2,
        (right - 3) / 2,
        2 * right + 3,
    ];
    let kinds = CALLS.iter().map(|(kind, ..)| *kind);
    let kinds: Vec<Kind> = kinds.filter(|kind| kind.has_summary()).collect();
    for length in lengths {
        let mut other = card.clone();
        other.summary.resize(length, 64);
        for call in [BUILD, CHECK, call(random.one(&kinds), 0, 1)] {
            one(&other, call, margin, counts)?;
        }
    }
    Ok(())
}

/// Each number of a summary with another value, for some cards and maps: the check says no.
pub fn each_number(seed: u64, margin: usize, counts: &mut Counts) -> Result<(), String> {
    let random = &mut Random::of(seed);
    for n in [1, 63, 64, 65, 128, 129, 192, 200, 256, 257, 320, 1024, 4096] {
        let mut card = placed::card(n, random);
        card.bytes = Vec::new();
        card.summary = build(&card.map, n);
        let own = card.summary.clone();
        let mut beside = Beside::new(card, margin, Compared::All);
        for at in 0..own.len() {
            let number = own[at];
            let one = random.one(&[number.wrapping_add(1), number.wrapping_sub(1)]);
            for other in [one, !number, random.draw() as u32] {
                let mut summary = own.clone();
                summary[at] = other;
                beside.lend_summary(summary);
                let result = beside.call(CHECK, counts);
                result.map_err(|error| format!("n {n}, number {at} is {other}: {error}"))?;
            }
        }
    }
    Ok(())
}
