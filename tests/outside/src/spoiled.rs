//! Calls with a false summary (document 02, (j)), on maps of every kind: what is not left open is as without it.

use crate::beside::{Beside, Compared};
use crate::counts::Counts;
use crate::figures::any_figures;
use crate::lengths::one;
use crate::lists::small_size;
use crate::placed::{self, card_with};
use bitwise::blocks::{figures, least_fit, plain, Figures, FREE, TAKEN};
use bitwise::call::{accept, call, placed as reserve_placed, Call, Kind};
use bitwise::card::{entry, Card};
use bitwise::random::{runs, Random};
use bitwise::rows::Row;
use bitwise::summary::build;

/// A way to come to another summary of a map, and what it then is.
type Spoiling = (&'static str, fn(&[bool], usize, &mut Random) -> Vec<u32>);

#[rustfmt::skip]
const SPOILINGS: [Spoiling; 10] = [
    ("a summary of an earlier state", |map, n, random| build(&earlier(map, n, random), n)),
    ("a summary of another map", |map, n, random| {
        let longest = random.one(&[2, 20, 100, 1000]);
        build(&runs(map.len() / 64, longest, random.within(0, 1000) as u64), n)
    }),
    ("the summary of an empty card", |map, n, _| build(&vec![FREE; map.len()], n)),
    ("a summary of zeros", |map, n, _| build(&vec![TAKEN; map.len()], n)),
    ("a summary of the largest numbers", |map, n, _| vec![u32::MAX; build(map, n).len()]),
    ("a summary of any numbers", |map, n, random| {
        build(map, n).iter().map(|_| random.draw() as u32).collect()
    }),
    ("a summary of numbers up to n", |map, n, random| {
        build(map, n).iter().map(|_| random.within(0, n + 1) as u32).collect()
    }),
    ("a summary with one number off by one", |map, n, random| {
        changed(map, n, random, |number, random| random.one(&[number.wrapping_sub(1), number.wrapping_add(1)]))
    }),
    ("a summary with another number in it", |map, n, random| {
        changed(map, n, random, |_, random| random.one(&[0, 1, 2, 63, 64, 65, 128, 1 << 31, u32::MAX - 1, u32::MAX]))
    }),
    ("a summary with two groups in each other's place", |map, n, random| {
        let mut summary = build(map, n);
        let groups = summary.len() / 3;
        let (one, other) = (random.within(0, groups), random.within(0, groups));
        (0..3).for_each(|i| summary.swap(3 * one + i, 3 * other + i));
        summary
    }),
];

/// A map with some runs marked, as it may have been before.
fn earlier(map: &[bool], n: usize, random: &mut Random) -> Vec<bool> {
    let mut map = map.to_vec();
    for _ in 0..random.within(1, 4) {
        let start = random.within(0, n);
        let most = random.one(&[2, 10, 70, n + 1]);
        let end = (start + random.within(1, most.max(2))).min(n);
        map[start..end].fill(random.chance(1, 2));
    }
    map
}

/// The own summary of a map with another number in one place, in 1 case of 3 in group 0.
fn changed(
    map: &[bool],
    n: usize,
    random: &mut Random,
    other: fn(u32, &mut Random) -> u32,
) -> Vec<u32> {
    let mut summary = build(map, n);
    let most = random.one(&[3, summary.len(), summary.len()]);
    let at = random.within(0, most);
    summary[at] = other(summary[at], random);
    summary
}

/// Another summary for a card, of the length that it has, mostly a false one; and what it is. The card may have any n.
pub fn spoil(card: &Card, random: &mut Random) -> (&'static str, Vec<u32>) {
    let n = card.n.min(card.map.len());
    if n == 0 {
        return ("what it was", card.summary.clone());
    }
    let (kind, summary) = random.one(&SPOILINGS);
    let mut summary = summary(&card.map, n, random);
    summary.resize(card.summary.len(), 1);
    (kind, summary)
}

/// Calls on a small card.
pub fn spoiled(seed: u64, margin: usize, counts: &mut Counts) -> Result<(), String> {
    let mut random = Random::of(seed);
    let (mut n, _) = small_size(&mut random);
    if random.chance(1, 3) {
        n = random.within(200, 1000);
    }
    calls(n, (margin, Compared::All), random, counts)
}

/// The same on a card of full size.
pub fn spoiled_full(seed: u64, margin: usize, counts: &mut Counts) -> Result<(), String> {
    let mut random = Random::of(seed);
    let n = random.one(&[262144, 262143, 262081]);
    calls(n, (margin, Compared::Part), random, counts)
}

/// Some calls, each with a summary that is true, was true some calls before, is false in one of the ways, or is what the call
/// before left.
fn calls(
    n: usize,
    (margin, compared): (usize, Compared),
    mut random: Random,
    counts: &mut Counts,
) -> Result<(), String> {
    let card = card(n, &mut random);
    let mut log = format!("a card of {n} blocks, {} of them free\n", card.free);
    let mut kept = card.summary.clone();
    let mut beside = Beside::new(card, margin, compared);
    for _ in 0..20 {
        let kind = another_summary(&mut beside, &mut kept, &mut random);
        let call = next_call(&beside.card, &mut random).with_summary();
        log += &format!("    with {kind}: {call}\n");
        let expected = Expected::of(&beside.card, call);
        let result = beside.call(call, counts);
        result.map_err(|error| format!("{log}the last of these: {error}"))?;
        expected.note(kind, &beside.card, counts);
    }
    Ok(())
}

const LEFT: &str = "the summary that was left";
const TRUE: &str = "the map's own summary";
const KEPT: &str = "the summary of some calls before";

/// Lends a summary, and says which. A true one is kept for later calls.
fn another_summary(beside: &mut Beside, kept: &mut Vec<u32>, random: &mut Random) -> &'static str {
    let (kind, summary) = match random.within(0, 7) {
        0 => return LEFT,
        1 => {
            *kept = build(&beside.card.map, beside.card.n);
            (TRUE, kept.clone())
        }
        2 => (KEPT, kept.clone()),
        _ => spoil(&beside.card, random),
    };
    beside.lend_summary(summary);
    kind
}

/// A card with a map of some kind. Sheet 0 is Absent, sheet 1 is Open in the first free run from some block on, if there is
/// one.
fn card(n: usize, random: &mut Random) -> Card {
    let mut card = placed::card(n, random);
    card.sheets.push(entry(0x41, 0, 0));
    card.summary = build(&card.map, n);
    let from = random.within(0, n) as u32;
    if let Some(start) = least_fit(&card.map[..n], figures(from, n as u32, 1), 1) {
        let run = card.map[start..n].iter().take_while(|&&b| b == FREE);
        let length = random.within(1, run.count().min(70) + 1);
        card.sheets[1] = entry(0x4f, start as u32, length as u32);
        card.map[start..start + length].fill(TAKEN);
        card.free -= length;
    }
    card
}

/// A reserve of sheet 0 more often than not, which is released before the next; sheet 1 grows, or is released and accepted
/// again.
fn next_call(card: &Card, random: &mut Random) -> Call {
    let n = card.n as u32;
    if card.sheets[0].length > 0 && random.chance(3, 4) {
        return call(Kind::Release, 0, 0);
    }
    let most = random.one(&[3, 3, 10, 70, 130, card.n + 2]);
    let k = match random.within(0, 16) {
        0 => random.one(&[0, n + 1, u32::MAX - 1, u32::MAX]),
        1 => card.summary[2].wrapping_add(random.one(&[0, 1, u32::MAX])),
        _ => random.within(1, most) as u32,
    };
    let sheet = (card.sheets[0].length > 0) as u32;
    let block = random.within(0, card.n) as u32;
    match random.within(0, 16) {
        0..=4 => call(Kind::Reserve, 0, k),
        5..=9 => reserve_placed(0, k, any_figures(card.n, k, random)),
        10..=11 => accept(sheet, free_from(card, block), k.min(2)),
        12..=13 => call(Kind::Grow, 1, k.min(2)),
        14 => call(Kind::Release, 1, 0),
        _ => call(Kind::SummaryCheck, 0, 0),
    }
}

/// The first free block from a block on, or that block.
fn free_from(card: &Card, block: u32) -> u32 {
    let figures = figures(block, card.n as u32, 1);
    let fit = least_fit(&card.map[..card.n], figures, 1);
    fit.map_or(block, |start| start as u32)
}

const BY_GROUP_0: &str = "no fit by a false group 0, and the map has one";
const BY_BOTH: &str = "no fit by a false group 0, nor by the map";
const BY_MAP: &str = "no fit by the map, and a false group 0 promises one";
const ACCEPT: &str = "an accept with a false summary";
const GROW: &str = "a grow with a false summary";
const RELEASE: &str = "a release with a false summary";
const LOWEST: &str = "by a false summary, the lowest fit";
const OTHER: &str = "by a false summary, another fit";
const MISSED: &str = "by a false summary, no fit, and the map has one";

/// Ends of a search that document 02 leaves open: they need not be met.
pub const LEFT_OPEN: [&str; 3] = [LOWEST, OTHER, MISSED];

/// What must have been met.
pub fn expected() -> impl Iterator<Item = String> {
    let some = [BY_GROUP_0, BY_BOTH, BY_MAP, ACCEPT, GROW, RELEASE];
    let kinds = SPOILINGS.iter().map(|(kind, _)| *kind);
    let kinds = kinds.chain([LEFT, TRUE, KEPT]).map(searched_with);
    some.into_iter().map(str::to_string).chain(kinds)
}

fn searched_with(kind: &str) -> String {
    format!("a search with {kind}")
}

/// What is known of a call before it is made: whether it comes to a search, where the map has its fit, whether the summary is
/// false, and whether its group 0 refuses.
struct Expected {
    call: Call,
    fit: Option<usize>,
    searches: bool,
    is_false: bool,
    refuses: bool,
    accepted: bool,
}

impl Expected {
    fn of(card: &Card, call: Call) -> Expected {
        let (n, k) = (card.n, call.number as usize);
        let first = card.first(call);
        let has_search = call.kind.rows().contains(&Row::NoFit);
        let figures = match call.kind {
            Kind::ReservePlacedWithSummary => call.figures,
            _ => plain(n),
        };
        Expected {
            call,
            fit: least_fit(&card.map[..n], figures, k.max(1)),
            searches: has_search && first.is_none_or(|row| row >= Row::NoFit),
            is_false: !card.has_own_summary(),
            refuses: card.summary[2] < call.number,
            accepted: first.is_none(),
        }
    }

    /// Counts what the call was an example of. The card is what it left.
    fn note(&self, kind: &str, card: &Card, counts: &mut Counts) {
        if self.searches {
            counts.note_kind(&searched_with(kind));
        }
        if let Some(what) = self.with_false_summary(card).filter(|_| self.is_false) {
            counts.note_kind(what);
        }
    }

    fn with_false_summary(&self, card: &Card) -> Option<&'static str> {
        match self.call.kind {
            _ if self.searches => Some(self.end_of_search(card)),
            _ if !self.accepted => None,
            Kind::AcceptWithSummary => Some(ACCEPT),
            Kind::GrowWithSummary => Some(GROW),
            Kind::ReleaseWithSummary => Some(RELEASE),
            _ => None,
        }
    }

    fn end_of_search(&self, card: &Card) -> &'static str {
        let held = card.sheets[self.call.sheet as usize];
        let granted = (held.mark == 0x4f).then_some(held.start as usize);
        match (self.refuses, self.fit, granted) {
            (true, Some(_), _) => BY_GROUP_0,
            (true, None, _) => BY_BOTH,
            (false, None, _) => BY_MAP,
            (false, Some(_), None) => MISSED,
            (false, fit, granted) if fit == granted => LOWEST,
            _ => OTHER,
        }
    }
}

/// All maps of up to 3 blocks with all summaries of numbers up to n + 1 and the largest, and all reserves of up to n + 1 blocks
/// with some figures.
pub fn all_summaries(margin: usize, counts: &mut Counts) -> Result<(), String> {
    for n in 1..=3 {
        let numbers: Vec<u32> = (0..=n + 1).chain([u32::MAX]).collect();
        let one_of = |at: usize| numbers[at % numbers.len()];
        for blocks in 0..1 << n {
            let mut card = card_with(n as usize, 0, blocks);
            for summary in 0..numbers.len().pow(3) {
                let times = numbers.len();
                card.summary = [summary, summary / times, summary / times / times]
                    .map(one_of)
                    .to_vec();
                for call in (0..=n + 1).flat_map(|k| reserves(n, k)) {
                    one(&card, call, margin, counts)?;
                }
            }
        }
    }
    across_words(margin, counts)
}

/// The reserves of k blocks with some figures of a card of n blocks.
fn reserves(n: u32, k: u32) -> Vec<Call> {
    let some: [Figures; 5] = [
        figures(0, n, 1),
        figures(1, n, 1),
        figures(0, n, 2),
        figures(0, n - 1, 1),
        figures(1, n, 2),
    ];
    let placed = some.map(|figures| reserve_placed(0, k, figures));
    let all = placed.into_iter().chain([call(Kind::Reserve, 0, k)]);
    all.map(Call::with_summary).collect()
}

/// All choices of the last 6 of 66 blocks, the others taken, with each number of the summary made another: runs on both sides
/// of the end of a word, and the groups above both.
fn across_words(margin: usize, counts: &mut Counts) -> Result<(), String> {
    for blocks in 0..1 << 6 {
        let mut card = card_with(66, 60, blocks);
        let own = build(&card.map, 66);
        for (at, k) in (0..own.len()).flat_map(|at| (1..=6).map(move |k| (at, k))) {
            for number in [0, 1, k - 1, k, k + 1, 64, 128, u32::MAX] {
                card.summary = own.clone();
                card.summary[at] = number;
                for figures in [figures(0, 66, 1), figures(61, 66, 1), figures(0, 66, 2)] {
                    let reserve = reserve_placed(0, k, figures).with_summary();
                    one(&card, reserve, margin, counts)?;
                }
            }
        }
    }
    Ok(())
}
