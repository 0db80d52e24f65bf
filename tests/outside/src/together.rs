//! Calls for which two or more rows of document 01's table hold at once, made so: a card on which the call would be accepted
//! is changed, or the call is, until the rows hold. Which of them the answer names shows their order.

use crate::closing::unsound;
use crate::counts::Counts;
use crate::dates::{date_outside, no_day, no_month, no_year};
use crate::generate::accepted;
use crate::lengths::one;
use bitwise::blocks::{survey, words_of, FREE, TAKEN};
use bitwise::calendar::LAST_DAY;
use bitwise::call::{Bytes, Call, Kind, CALLS, PAYLOAD};
use bitwise::card::{entry, sealed, wing_of, Card, Entry};
use bitwise::random::Random;
use bitwise::roles::turned_away;
use bitwise::rows::{pairs, Row};
use bitwise::summary::{build, summary_numbers};

/// Each pair of rows of each call once, in 1 case of 3 with a third row.
pub fn together(seed: u64, margin: usize, counts: &mut Counts) -> Result<(), String> {
    let random = &mut Random::of(seed);
    for (kind, name, order) in CALLS {
        for (first, other) in pairs(name, order) {
            let mut rows = vec![first, other];
            let third = random.one(order);
            if random.chance(1, 3) && !rows.contains(&third) {
                rows.push(third);
            }
            let card = &mut card(random);
            let call = &mut accepted(kind, card, random);
            rows.sort_by_key(|row| step(*row));
            for row in &rows {
                make_hold(*row, card, call, random);
            }
            if kind.has_summary() && random.chance(1, 2) {
                build_again(card);
            }
            one(card, *call, margin, counts).map_err(|error| format!("{rows:?}: {error}"))?;
        }
    }
    Ok(())
}

/// The standings of a sheet: a mark, and whether it has blocks.
const STANDINGS: [(u32, bool); 5] = [
    (0x41, false),
    (0x50, false),
    (0x50, true),
    (0x4f, true),
    (0x43, true),
];

/// A sound state with sheets of every standing, in any order, and its own summary. All places are filled, and behind each
/// extent two blocks or more are free, so that each call has arguments with which it is accepted.
pub fn card(random: &mut Random) -> Card {
    let mut standings = STANDINGS.to_vec();
    for _ in 0..random.within(0, 5) {
        standings.insert(random.within(0, standings.len()), random.one(&STANDINGS));
    }
    standings.rotate_left(random.within(0, 5));
    let mut card = Card {
        n: random.within(0, 3),
        free: 0,
        map: Vec::new(),
        sheets: Vec::new(),
        bytes: Vec::new(),
        summary: Vec::new(),
    };
    for (mark, held) in standings {
        let (start, length) = (card.n as u32, random.one(&[1, 2, 2, 3, 3, 4, 20]));
        card.sheets.push(if held {
            entry(mark, start, length)
        } else {
            entry(mark, 0, 0)
        });
        card.n += if held {
            length as usize + random.within(2, 6)
        } else {
            0
        };
    }
    card.n += random.one(&[0, 0, 1, 70]);
    fill(&mut card, random);
    card
}

/// The map, the free count and the blocks that go with the entries.
fn fill(card: &mut Card, random: &mut Random) {
    card.map = (0..64 * words_of(card.n)).map(|b| b < card.n).collect();
    card.bytes = vec![random.one(&[0, 0x5a]); 512 * card.n];
    for (sheet, held) in card.sheets.iter().enumerate() {
        for place in 0..held.length {
            let b = (held.start + place) as usize;
            card.map[b] = TAKEN;
            let payload = payload(place, random);
            card.bytes[512 * b..512 * b + 512].copy_from_slice(&sealed(
                sheet as u32,
                place,
                &payload,
            ));
        }
    }
    card.free = card.map.iter().filter(|&&block| block == FREE).count();
    card.summary = build(&card.map, card.n);
}

/// A payload of a place. That of place 0 starts with a term of some days.
fn payload(place: u32, random: &mut Random) -> Vec<u8> {
    let first = random.within(1, LAST_DAY as usize - 9) as u32;
    let term = (first, first + random.within(0, 9) as u32);
    let bytes = Bytes {
        seed: random.within(2, 1000) as u32,
        term: (place == 0).then_some(term),
        ..PAYLOAD
    };
    bytes.contents()
}

/// The summary is that of the map as it is now, if it has the length for it.
fn build_again(card: &mut Card) {
    if card.summary.len() == summary_numbers(card.n) {
        card.summary = build(&card.map, card.n);
    }
}

/// The turn in which rows are made to hold: first the sheet, then its entry, then what is asked of them, and the lengths and
/// limits last, so that one change does not undo another.
fn step(row: Row) -> u32 {
    match row {
        Row::Absent | Row::Paused | Row::PausedEmpty | Row::Open | Row::Complete => 0,
        Row::NoPlace | Row::NoBlocks | Row::SliceLength => 1,
        Row::Unsound | Row::UnsoundFirst => 1,
        Row::Blank | Row::NoFit | Row::NotNext | Row::RunNotFree => 2,
        Row::NoStep | Row::BeforeAboveN | Row::NoYear | Row::NoMonth => 2,
        Row::FreeCount | Row::FromNotBefore | Row::NoDay | Row::OutsideTerm => 3,
        Row::Damaged | Row::SavedState => 4,
        Row::Blocks | Row::OverLimit => 5,
        Row::FreeAboveN => 6,
        Row::Sheets => 7,
        Row::NoSheet => 8,
        _ => 9,
    }
}

fn make_hold(row: Row, card: &mut Card, call: &mut Call, random: &mut Random) {
    let c = card.sheets.len() as u32;
    match row {
        Row::Role => call.role = random.one(&turned_away(call.kind.name())),
        Row::Absent => call.sheet = sheet_of(card, random, |e| e.mark == 0x41),
        Row::Paused => call.sheet = sheet_of(card, random, |e| e.mark == 0x50),
        Row::PausedEmpty => {
            call.sheet = sheet_of(card, random, |e| e.mark == 0x50 && e.length == 0)
        }
        Row::Open => call.sheet = sheet_of(card, random, |e| e.mark == 0x4f),
        Row::Complete => call.sheet = sheet_of(card, random, |e| e.mark == 0x43),
        Row::NoSheet => call.sheet = random.one(&[c, c + 1, u32::MAX]),
        Row::NoBlocks => call.number = 0,
        Row::NoPlace => {
            let length = card.sheets[call.sheet as usize].length;
            call.number = random.one(&[length, length, length + 1, u32::MAX]);
        }
        Row::SliceLength => {
            let length = random.one(&[0, 1, 495, 497, 512]);
            call.bytes = Bytes {
                length,
                ..call.bytes
            };
        }
        Row::NoStep => call.figures.step = 0,
        Row::FromNotBefore => call.figures.from = random.one(&[call.figures.before, u32::MAX]),
        Row::BeforeAboveN => {
            call.figures.before = random.one(&[card.n as u32 + 1, 262146, u32::MAX])
        }
        Row::OverLimit => lower_limit(card, call, random),
        Row::SavedState => unsound(card, random),
        Row::ScratchLength => {
            call.number = random.one(&[0, call.number + 1, call.number + 63, 65, 66])
        }
        Row::NoYear => call.date = no_year(call.date, random),
        Row::NoMonth => call.date = no_month(call.date, random),
        Row::NoDay => call.date = no_day(call.date, random),
        Row::OutsideTerm => leave_term(card, call, random),
        Row::UnsoundFirst => spoil_block(card, *call, 0, random),
        Row::Unsound => {
            let length = card.sheets[call.sheet as usize].length.max(1);
            let place = match call.kind {
                Kind::Complete => random.within(0, length as usize),
                _ => call.number as usize,
            };
            spoil_block(card, *call, place, random)
        }
        Row::Blank => empty_block(card, *call, random),
        Row::NoFit | Row::NotNext => leave_no_room(card, call, random),
        Row::RunNotFree => spoil_run(card, call, random),
        Row::FreeCount => contradict_count(card, call, random),
        Row::Damaged => damage_entry(card, *call, random),
        Row::Blocks if call.kind == Kind::Fresh => call.number = random.one(&[0, 262145, u32::MAX]),
        _ => wrong_limit(row, card, random),
    }
}

/// Row 1 for the shape, the number of sheets and the lengths.
pub fn wrong_limit(row: Row, card: &mut Card, random: &mut Random) {
    const LAST: usize = u32::MAX as usize;
    let (w, length) = (card.map.len() / 64, card.bytes.len());
    match row {
        Row::Blocks => {
            card.n = random.one(&[0, 262145, LAST]);
            // In half the cases it is the only reason for row 1.
            if card.n == 0 && random.chance(1, 2) {
                (card.free, card.map, card.bytes) = (0, Vec::new(), Vec::new());
                card.summary.resize(summary_numbers(0), 0);
            }
        }
        Row::FreeAboveN => {
            let above = random.one(&[card.n + 1, card.n + 1, 2 * card.n + 7, LAST]);
            card.free = above.min(LAST);
        }
        Row::Sheets => {
            let sheets = random.one(&[0, 1025, 1025]);
            card.sheets.resize(sheets, entry(0x41, 0, 0));
        }
        Row::MapLength => {
            let words = random.one(&[w + 1, w + 1, w.saturating_sub(1), 0]);
            card.map.resize(64 * words, random.chance(1, 2));
        }
        Row::SummaryLength => {
            let right = card.summary.len();
            let less = right.saturating_sub(random.one(&[1, 3]));
            let numbers = random.one(&[right + 1, right + 3, 2 * right + 3, less, right / 2, 0]);
            card.summary.resize(numbers, random.one(&[0, 1, u32::MAX]));
        }
        Row::CardLength => {
            let less = length.saturating_sub(random.one(&[1, 512]));
            let bytes = random.one(&[length + 1, length + 512, less, 0]);
            card.bytes.resize(bytes, 0);
        }
        other => unreachable!("{other:?} is not about the shape or a length"),
    }
}

/// A sheet with a standing: the card has one of each.
fn sheet_of(card: &Card, random: &mut Random, stands: fn(&Entry) -> bool) -> u32 {
    let sheets: Vec<usize> = (0..card.sheets.len())
        .filter(|sheet| stands(&card.sheets[*sheet]))
        .collect();
    random.one(&sheets) as u32
}

/// An entry that keeps its mark, more often than not, and breaks its rule; or a free block in its extent.
fn damage_entry(card: &mut Card, call: Call, random: &mut Random) {
    let n = card.n as u32;
    let e = &mut card.sheets[call.sheet as usize];
    let held = e.length > 0;
    match random.within(0, 6) {
        0 => *e = entry(0, 0, 0),
        1 => e.mark = random.one(&[0, 0x42, 0x4f00]),
        2 if held => e.length = 0,
        2 => e.length = 1,
        3 if held => e.length = random.one(&[n + 1 - e.start, u32::MAX - e.start + 1]),
        3 => e.start = 1,
        _ if held => {
            card.map[(e.start + random.within(0, e.length as usize) as u32) as usize] = FREE
        }
        _ => (e.start, e.length) = (random.within(0, 3) as u32, random.within(1, 3) as u32),
    }
}

/// A limit of the wing that is below what it would hold, if it would hold a block or more.
fn lower_limit(card: &Card, call: &mut Call, random: &mut Random) {
    let wing = wing_of(call.sheet);
    let together = card.held_by_wing(wing) + call.number as u64;
    let most = together.saturating_sub(1).min(u32::MAX as u64);
    let limit = random.one(&[most, most, most / 2, 0]);
    call.limits = [random.one(&[0, u32::MAX]); 8];
    call.limits[wing as usize] = limit as u32;
}

/// A date outside the term of the call's sheet.
fn leave_term(card: &Card, call: &mut Call, random: &mut Random) {
    let term = card.term(card.sheets[call.sheet as usize]);
    if let Some(date) = term.and_then(|term| date_outside(term, random)) {
        call.date = date;
    }
}

/// A block of the call's sheet that is not sound.
fn spoil_block(card: &mut Card, call: Call, place: usize, random: &mut Random) {
    let e = card.sheets[call.sheet as usize];
    let at = 512 * (e.start as usize + place);
    if let Some(block) = card.bytes.get_mut(at..at + 512) {
        block[random.one(&[3, 7, 8, 503, 507, 511])] ^= 1 << random.within(0, 8);
    }
}

/// Another place than the first of the call's sheet becomes blank, if there is one.
fn empty_block(card: &mut Card, call: Call, random: &mut Random) {
    let e = card.sheets[call.sheet as usize];
    let place = random.within(0, e.length.max(1) as usize);
    let at = 512 * (e.start as usize + place);
    card.bytes[at..at + 512].fill(0);
}

/// More blocks than there are in a row, no free block, a group 0 that says so, or figures that no start has.
fn leave_no_room(card: &mut Card, call: &mut Call, random: &mut Random) {
    let longest = survey(&card.map, card.n).longest as u32;
    let by_summary = call.kind.has_summary() && call.number > 0 && random.chance(1, 3);
    if by_summary && call.kind.rows().contains(&Row::NoFit) {
        card.summary[2] = call.number - 1;
        return;
    }
    let ways = if call.kind.without_summary() == Kind::ReservePlaced {
        6
    } else {
        4
    };
    match random.within(0, ways) {
        0 => call.number = u32::MAX,
        1 => call.number = card.n as u32 + 1,
        2 => call.number = longest + 1,
        3 => card.map.fill(TAKEN),
        4 if call.number > 1 => (call.figures.from, call.figures.before) = (0, call.number - 1),
        _ => (call.figures.from, call.figures.step) = (1, card.n as u32),
    }
}

/// A run that ends behind n, also where its end has 33 bits, or that has a taken block.
fn spoil_run(card: &mut Card, call: &mut Call, random: &mut Random) {
    let (n, k) = (card.n as u32, call.number.max(1));
    match random.within(0, 6) {
        0 => call.start = random.one(&[n, n + 1, u32::MAX]),
        1 => call.start = n + 1 - k,
        2 => call.start = 0u32.wrapping_sub(k),
        3 => call.number = u32::MAX,
        4 => card.map.fill(TAKEN),
        _ => card.map[call.start as usize + random.within(0, k as usize)] = TAKEN,
    }
}

/// A free count below what is wanted, or so high that a release would lift it above n.
fn contradict_count(card: &mut Card, call: &mut Call, random: &mut Random) {
    if call.kind.without_summary() == Kind::Release {
        card.free =
            card.n - random.within(0, card.sheets[call.sheet as usize].length.max(1) as usize);
    } else if call.number > 0 && random.chance(2, 3) {
        card.free = (call.number as usize - 1).min(random.one(&[0, 1, card.n]));
    } else {
        call.number = u32::MAX;
    }
}
