//! Wings that share a card (document 02, (k)): limits of every kind, what the calls of a list are examples of, and each wing at
//! its limit.

use crate::counts::Counts;
use crate::lengths::one;
use bitwise::blocks::{figures, fresh, FREE, TAKEN};
use bitwise::call::{accept, call, placed, Call, Kind, Limits, CALLS, LARGEST};
use bitwise::card::{entry, wing_of, Card};
use bitwise::random::Random;
use bitwise::rows::Row;
use bitwise::summary::build;

/// One of c sheets: any, but of many sheets often one at the end of a wing.
pub fn some_sheet(c: usize, random: &mut Random) -> u32 {
    let mut sheet = random.within(0, c) as u32;
    if c > 100 && random.chance(1, 3) {
        let wing = 128 * random.within(0, c.div_ceil(128)) as u32;
        sheet = wing + random.one(&[0, 1, 126, 127]);
    }
    sheet.min(c as u32 - 1)
}

/// What the wing of a call's sheet would hold after it, and the wing; none for a sheet that is in no wing.
fn wanted(card: &Card, call: Call) -> Option<(usize, u64)> {
    let wing = wing_of(call.sheet);
    let together = card.held_by_wing(wing) + call.number as u64;
    (wing < 8).then_some((wing as usize, together))
}

/// Limits for a call: mostly such that it is not refused by them, and often such that it comes just to its wing's.
pub fn some_limits(card: &Card, call: Call, random: &mut Random) -> Limits {
    let Some((wing, together)) = wanted(card, call).filter(|_| call.kind.has_limits()) else {
        return LARGEST;
    };
    let together = together.min(u32::MAX as u64) as u32;
    let n = card.n as u32;
    let mut limits = [random.one(&[0, 1, n, u32::MAX]); 8];
    match random.within(0, 24) {
        0 => return [0; 8],
        1 => limits.fill_with(|| random.within(0, 10) as u32),
        2 => limits.fill_with(|| random.draw() as u32),
        3 => return [n; 8],
        4 => limits[wing] = together.saturating_sub(1),
        5 => limits[wing] = random.within(0, together as usize + 1) as u32,
        6..=10 => limits[wing] = together,
        11..=12 => limits[wing] = together.saturating_add(1),
        13 => limits[wing] = n,
        _ => return LARGEST,
    }
    limits
}

/// Limits that stay the same over a list.
pub fn unchanging(n: usize, random: &mut Random) -> Limits {
    let some = [0, 1, n / 8, n / 4, n / 2, n, n + 1, u32::MAX as usize];
    let mut limits = [0; 8];
    limits.fill_with(|| random.one(&some) as u32);
    // Of a small catalogue all sheets are in the first wing.
    limits[0] = limits[0].max(n.min(3) as u32);
    limits
}

const ABOVE_33_BITS: &str = "blocks held and wanted that make 33 bits";
const PAUSED: &str = "one block above, with a paused course";
const NEIGHBOURS: &str = "at the limit, and above those of all other wings";
const LOWERED: &str = "a limit below what the wing holds already";
const NO_MORE: &str = "an offer that was made, and is above the limit by then";

fn with_limits() -> impl Iterator<Item = &'static str> {
    let calls = CALLS.iter().filter(|(kind, ..)| kind.has_limits());
    calls.map(|(_, name, _)| *name)
}

fn at_limit(name: &str) -> String {
    format!("{name} at the limit")
}

fn one_above(name: &str) -> String {
    format!("{name} one block above the limit")
}

fn of_wing(wing: usize) -> String {
    format!("wing {wing} at its limit")
}

/// What must have been met.
pub fn expected() -> impl Iterator<Item = String> {
    let some = [ABOVE_33_BITS, PAUSED, NEIGHBOURS, LOWERED, NO_MORE].map(str::to_string);
    let edges = with_limits().flat_map(|name| [at_limit(name), one_above(name)]);
    some.into_iter().chain(edges).chain((0..8).map(of_wing))
}

/// Counts what a call is an example of. It is the next one of the card; `offered` says whether it is the accept of an offer.
pub fn note(card: &Card, call: Call, offered: bool, counts: &mut Counts) {
    let Some((wing, together)) = wanted(card, call).filter(|_| call.kind.has_limits()) else {
        return;
    };
    let limit = call.limits[wing] as u64;
    let name = call.kind.name();
    let first = card.first(call);
    let others = (0..8).filter(|other| *other != wing);
    let above_others = others
        .clone()
        .all(|other| (call.limits[other] as u64) < together);
    let paused = |(sheet, entry): (usize, &bitwise::card::Entry)| {
        wing_of(sheet as u32) as usize == wing && entry.mark == 0x50 && entry.length > 0
    };
    let over = first == Some(Row::OverLimit);
    let kinds = [
        (first.is_none() && together == limit, at_limit(name)),
        (first.is_none() && together == limit, of_wing(wing)),
        (
            first.is_none() && together == limit && above_others,
            NEIGHBOURS.to_string(),
        ),
        (over && together == limit + 1, one_above(name)),
        (
            over && together > u32::MAX as u64,
            ABOVE_33_BITS.to_string(),
        ),
        (
            over && together == limit + 1 && card.sheets.iter().enumerate().any(paused),
            PAUSED.to_string(),
        ),
        (
            over && together - call.number as u64 > limit,
            LOWERED.to_string(),
        ),
        (over && offered, NO_MORE.to_string()),
    ];
    for (_, kind) in kinds.iter().filter(|(holds, _)| *holds) {
        counts.note_kind(kind);
    }
}

/// A card of 100 blocks and 1,024 sheets: of each wing the first sheet is Open and the last a paused course or Complete, with
/// one block to three, and a block or more between them. All other sheets are Absent.
fn eight_wings() -> Card {
    let n = 100;
    let mut card = Card {
        n,
        free: 0,
        map: fresh(n, 2),
        sheets: vec![entry(0x41, 0, 0); 1024],
        bytes: vec![0x5a; 512 * n],
        summary: Vec::new(),
    };
    let mut start = 2;
    for wing in 0..8 {
        let last = [0x43, 0x50][wing % 2];
        for (sheet, mark) in [(128 * wing, 0x4f), (128 * wing + 127, last)] {
            let length = 1 + (wing + sheet) % 3;
            card.sheets[sheet] = entry(mark, start as u32, length as u32);
            card.map[start..start + length].fill(TAKEN);
            start += length + 3;
        }
    }
    card.free = card.map[..n].iter().filter(|&&block| block == FREE).count();
    card.summary = build(&card.map, n);
    card
}

/// The calls that limits go with, of an Absent sheet of a wing, and the grow of its first sheet; without a summary and with it.
fn calls_of(wing: u32, sheet: u32, k: u32) -> Vec<Call> {
    let calls = [
        call(Kind::Reserve, sheet, k),
        placed(sheet, k, figures(1, 99, 2)),
        call(Kind::Offer, sheet, k),
        accept(sheet, 96, k),
        call(Kind::Grow, 128 * wing, k),
    ];
    let forms = calls.iter().map(|call| call.with_summary());
    calls.into_iter().chain(forms).collect()
}

/// Each call of each wing at its limit and one block above, of some sheet and some number of blocks.
pub fn some_of_each_wing(seed: u64, margin: usize, counts: &mut Counts) -> Result<(), String> {
    let random = &mut Random::of(seed);
    let card = eight_wings();
    for wing in 0..8 {
        let sheet = 128 * wing + random.within(1, 127) as u32;
        let k = random.within(1, 4) as u32;
        let together = card.held_by_wing(wing) as u32 + k;
        for call in calls_of(wing, sheet, k) {
            let others = random.one(&[0, together, u32::MAX]);
            for limit in [together - 1, together] {
                let mut limits = [others; 8];
                limits[wing as usize] = limit;
                let call = call.with_limits(limits);
                note(&card, call, false, counts);
                one(&card, call, margin, counts)?;
            }
        }
    }
    Ok(())
}

/// Each call of each wing at its limit, beside it, and with the largest and the least; the other wings' limits being the
/// largest, the least or what this wing would hold.
pub fn each_wing(margin: usize, counts: &mut Counts) -> Result<(), String> {
    let card = eight_wings();
    for wing in 0..8 {
        let held = card.held_by_wing(wing) as u32;
        for (sheet, k) in [1, 2, 63, 126]
            .into_iter()
            .flat_map(|at| (0..=3).map(move |k| (128 * wing + at, k)))
        {
            for call in calls_of(wing, sheet, k) {
                for limit in [0, held - 1, held, held + 1, held + 2, held + 3, u32::MAX] {
                    for others in [0, held + k, u32::MAX] {
                        let mut limits = [others; 8];
                        limits[wing as usize] = limit;
                        let call = call.with_limits(limits);
                        note(&card, call, false, counts);
                        one(&card, call, margin, counts)?;
                    }
                }
            }
        }
    }
    large_sums(margin, counts)
}

/// Lengths of damaged entries that make sums of 32 bits and of more, which come to little or nothing modulo 2^32; those of the
/// sheets before and behind the wing do not count. A catalogue may end inside the wing.
fn large_sums(margin: usize, counts: &mut Counts) -> Result<(), String> {
    const HALF: u32 = 1 << 31;
    let all: Vec<(u32, u32)> = (2..126).map(|at| (at, u32::MAX)).collect();
    let lists: [&[(u32, u32)]; 8] = [
        &[(5, HALF), (9, HALF)],
        &[(5, HALF), (9, HALF - 9)],
        &[(5, u32::MAX), (126, 1)],
        &[(5, u32::MAX)],
        &[(5, u32::MAX - 9)],
        &[(5, HALF), (9, HALF), (125, HALF), (126, HALF)],
        &[(126, u32::MAX - 8), (5, 3)],
        &all,
    ];
    for (wing, list) in (0..8).flat_map(|wing| lists.map(|list| (wing, list))) {
        let mut card = eight_wings();
        for (at, length) in list {
            card.sheets[(128 * wing + at) as usize].length = *length;
        }
        for sheets in [128 * wing as usize + 6, 128 * wing as usize + 127, 1024] {
            let mut card = card.clone();
            card.sheets.truncate(sheets);
            let beside = [wing + 1, wing.wrapping_sub(1)]
                .into_iter()
                .filter(|wing| *wing < 8);
            for wing in beside.chain([wing]) {
                for (limit, k) in [u32::MAX, HALF, 9]
                    .into_iter()
                    .flat_map(|limit| (0..=2).map(move |k| (limit, k)))
                {
                    for call in calls_of(wing, 128 * wing + 1, k) {
                        let call = call.with_limits([limit; 8]);
                        note(&card, call, false, counts);
                        one(&card, call, margin, counts)?;
                    }
                }
            }
        }
    }
    Ok(())
}
