//! Closing the gaps (document 02, (l)): all states of very small cards, cards on which sheets lie anywhere, edges of the
//! scratch's windows, and cards of full size.

use crate::beside::{Beside, Compared};
use crate::counts::Counts;
use crate::lengths::one;
use crate::spoiled::spoil;
use crate::windows;
use bitwise::blocks::{fresh, scratch_words, survey, words_of, FREE, TAKEN};
use bitwise::call::{call, Call, Kind};
use bitwise::card::{entry, Card, Entry};
use bitwise::random::Random;
use bitwise::rows::Row;
use bitwise::summary::build;

/// A closing with the scratch that the card asks for.
pub fn close_of(card: &Card) -> Call {
    call(Kind::Close, 0, scratch_words(card.n) as u32)
}

/// Bytes that tell each block of n from every other.
fn stamped(n: usize) -> Vec<u8> {
    let block = |b: usize| {
        let stamp = (b as u32).wrapping_mul(0x9e37_79b1).to_be_bytes();
        (0..512).map(move |at| stamp[at % 4] ^ (at / 4) as u8)
    };
    (0..n).flat_map(block).collect()
}

/// A card with these entries, the map that goes with those of them that lie on it, and its own summary.
fn card_of(n: usize, sheets: Vec<Entry>) -> Card {
    let mut map = fresh(n, words_of(n));
    for held in &sheets {
        let (start, length) = (held.start as usize, held.length as usize);
        map[start.min(n)..(start + length).min(n)].fill(TAKEN);
    }
    Card {
        n,
        free: map.iter().filter(|&&block| block == FREE).count(),
        summary: build(&map, n),
        map,
        sheets,
        bytes: stamped(n),
    }
}

/// A closing, and a second one, without a summary or with it.
fn twice(card: &Card, margin: usize, counts: &mut Counts) -> Result<(), String> {
    let mut beside = Beside::new(card.clone(), margin, Compared::All);
    let close = close_of(card);
    let forms = [close, close.with_summary(), close];
    for call in &forms[card.free % 2..card.free % 2 + 2] {
        note(&beside.card, *call, counts);
        let sheets = &card.sheets;
        beside
            .call(*call, counts)
            .map_err(|error| format!("n {}, {sheets:?}, {call}: {error}", card.n))?;
    }
    Ok(())
}

/// Every map, the free counts about that of its blocks, and every two entries of up to 3 blocks: most of these states are not
/// sound.
pub fn all_states(margin: usize, counts: &mut Counts) -> Result<(), String> {
    for n in 1..=3 {
        let extents = (0..=n + 1).flat_map(|start| (0..=n + 1).map(move |length| (start, length)));
        let marks = [0x41, 0x50, 0x4f, 0x43, 0x42];
        let entries = extents
            .flat_map(|(start, length)| marks.map(|mark| entry(mark, start as u32, length as u32)));
        let entries: Vec<Entry> = entries.collect();
        for (first, second) in entries
            .iter()
            .flat_map(|e| entries.iter().map(move |f| (*e, *f)))
        {
            let mut card = card_of(n, vec![first, second]);
            // The map of the entries, and one that differs in a block, or in a bit from n on.
            for other in 0..=n + 1 {
                if other <= n {
                    card.map[other] = !card.map[other];
                }
                let count = card.map[..n].iter().filter(|&&block| block == FREE).count();
                for free in count.saturating_sub(1)..=count + 1 {
                    card.free = free;
                    one(&card, close_of(&card), margin, counts)?;
                }
                if other <= n {
                    card.map[other] = !card.map[other];
                }
            }
        }
    }
    Ok(())
}

/// All places that three sheets can have on cards of up to 7 blocks, in every order, each Open, Complete or Paused.
pub fn all_places(margin: usize, counts: &mut Counts) -> Result<(), String> {
    for n in 1..=7 {
        let starts = 0..n;
        let extents = starts.flat_map(|start| (0..=n - start).map(move |length| (start, length)));
        let extents: Vec<(usize, usize)> = extents.collect();
        let apart = |(s, k): (usize, usize), (t, m): (usize, usize)| {
            k == 0 || m == 0 || s + k <= t || t + m <= s
        };
        for (at, a) in extents.iter().enumerate() {
            for b in extents.iter().filter(|b| apart(*a, **b)) {
                for c in extents.iter().filter(|c| apart(*a, **c) && apart(*b, **c)) {
                    let marks =
                        [[0x4f, 0x43, 0x50], [0x43, 0x50, 0x4f], [0x50, 0x4f, 0x43]][at % 3];
                    let sheets = [a, b, c]
                        .into_iter()
                        .zip(marks)
                        .map(|((start, length), mark)| match length {
                            0 => entry(0x41, 0, 0),
                            _ => entry(mark, *start as u32, *length as u32),
                        });
                    twice(&card_of(n, sheets.collect()), margin, counts)?;
                }
            }
        }
    }
    Ok(())
}

/// Some sheets in any order, of any lengths up to a longest, with gaps of up to some blocks and up to two before them all,
/// and some without blocks.
fn some_card(n: usize, longest: usize, gap: usize, random: &mut Random) -> Card {
    let mut sheets = vec![entry(0x41, 0, 0), entry(0x50, 0, 0)];
    let mut start = random.within(0, 3);
    while start < n && sheets.len() < 1020 {
        start += random.within(0, gap + 1);
        let length = random.within(1, longest + 1);
        if start + length <= n {
            let mark = random.one(&[0x4f, 0x43, 0x50]);
            let at = random.within(0, sheets.len() + 1);
            sheets.insert(at, entry(mark, start as u32, length as u32));
        }
        start += length;
    }
    card_of(n, sheets)
}

/// A card on which sheets lie anywhere: it is closed, with a true or a false summary or without one, and then filled to its
/// last block; or it is made unsound in some way first.
pub fn closings(seed: u64, margin: usize, counts: &mut Counts) -> Result<(), String> {
    let random = &mut Random::of(seed);
    let n = match random.within(0, 6) {
        0 => random.one(&[1, 2, 63, 64, 65, 128, 129]),
        1 => random.within(200, 1000),
        _ => random.within(1, 200),
    };
    let (longest, gap) = (random.one(&[1, 3, 10, 100]), random.one(&[0, 1, 5, 60]));
    let mut card = some_card(n, longest, gap, random);
    if random.chance(1, 3) {
        unsound(&mut card, random);
    }
    let (kind, summary) = spoil(&card, random);
    let with_summary = random.chance(1, 2);
    if with_summary && random.chance(2, 3) {
        card.summary = summary;
    }
    let close = close_of(&card);
    let close = if with_summary {
        close.with_summary()
    } else {
        close
    };
    let sheets = card.sheets.clone();
    note(&card, close, counts);
    let mut beside = Beside::new(card, margin, Compared::All);
    let about = |error| format!("n {n}, {sheets:?}, {close}, perhaps with {kind}: {error}");
    beside.call(close, counts).map_err(about)?;
    if beside.card.first(close).is_none() {
        fill_up(&mut beside, counts).map_err(about)?;
    }
    Ok(())
}

/// "A plain reserve that comes to the search next [..] finds no fit exactly when k exceeds the free count": one block more than
/// are free is refused, and all of them are granted.
fn fill_up(beside: &mut Beside, counts: &mut Counts) -> Result<(), String> {
    let mut absent = beside.card.sheets.iter();
    let absent = absent.position(|sheet| sheet.mark == 0x41);
    let Some(sheet) = absent.filter(|_| beside.card.free > 0) else {
        return Ok(());
    };
    let free = beside.card.free as u32;
    for (k, row) in [(free + 1, Some(Row::NoFit)), (free, None)] {
        let reserve = call(Kind::Reserve, sheet as u32, k);
        if beside.card.first(reserve) != row {
            return Err(format!("after the closing {reserve} has another answer"));
        }
        beside.call(reserve, counts)?;
    }
    Ok(())
}

/// A state becomes one that is not sound, mostly.
pub fn unsound(card: &mut Card, random: &mut Random) {
    let some = random.within(0, card.sheets.len());
    let block = random.within(0, card.map.len());
    let other = card.sheets[random.within(0, card.sheets.len())];
    match random.within(0, 8) {
        0 => card.free = card.free.saturating_sub(1),
        1 => card.free += 1,
        2 => card.map[block] = !card.map[block],
        3 => card.sheets[some] = entry(0, 0, 0),
        4 => card.sheets[some].length += 1,
        5 => card.sheets[some].start += 1,
        6 => card.sheets[some].mark = 0x42,
        _ => card.sheets[some] = other,
    }
}

/// Extents that end, start or cross where the scratch's windows do.
pub fn at_windows(margin: usize, counts: &mut Counts) -> Result<(), String> {
    for (n, extents) in windows::small_lists() {
        let sheets = windows::held(n, &extents).sheets;
        let mut card = card_of(n, sheets);
        twice(&card, margin, counts)?;
        // A block at the end of the first extent is free and held.
        let last = extents[0].1 - 1;
        card.map[last] = FREE;
        one(&card, close_of(&card), margin, counts)?;
        card.free += 1;
        one(&card, close_of(&card), margin, counts)?;
    }
    Ok(())
}

/// Every length of scratch up to 70 words and some beyond, for cards of one window and of more.
pub fn scratches(margin: usize, counts: &mut Counts) -> Result<(), String> {
    for n in [1, 64, 65, 4032, 4033, 4096, 4097, 8192] {
        let card = card_of(n, vec![entry(0x4f, n as u32 - 1, 1)]);
        for scratch in (0..=70).chain([127, 128, 129, 4096]) {
            let close = call(Kind::Close, 0, scratch);
            one(&card, close, margin, counts)?;
            one(&card, close.with_summary(), margin, counts)?;
        }
    }
    Ok(())
}

/// A card of full size, half free, with all its sheets in any order: closed, and filled to its last block.
pub fn full(seed: u64, margin: usize, counts: &mut Counts) -> Result<(), String> {
    let random = &mut Random::of(seed);
    let n = random.one(&[262144, 262143, 262081]);
    let card = some_card(n, 256, 256, random);
    let close = close_of(&card);
    let mut beside = Beside::new(card, margin, Compared::Part);
    let close = if random.chance(1, 2) {
        close.with_summary()
    } else {
        close
    };
    note(&beside.card, close, counts);
    let about = |error| format!("n {n}, {close}: {error}");
    beside.call(close, counts).map_err(about)?;
    beside.call(close, counts).map_err(about)?;
    fill_up(&mut beside, counts).map_err(about)
}

const NOTHING: &str = "a closing of a card without sheets";
const NO_GAP: &str = "a closing without a gap";
const FULL: &str = "a closing of a full card";
const OTHER_ORDER: &str = "a closing of sheets whose numbers are in another order";
const OVERLAP: &str = "a move by less than a sheet's length";
const APART: &str = "a move by more than a sheet's length";
const ONE_BLOCK: &str = "a move of many sheets by one block";
const STAYS: &str = "a sheet that stays, and one that moves";
const LONGER: &str = "a closing that makes the longest run longer";
const FALSE: &str = "a closing with a false summary";
const UNSOUND: &str = "a closing of a state that is not sound";

/// What must have been met.
pub fn expected() -> impl Iterator<Item = String> {
    let kinds = [
        NOTHING,
        NO_GAP,
        FULL,
        OTHER_ORDER,
        OVERLAP,
        APART,
        ONE_BLOCK,
        STAYS,
        LONGER,
        FALSE,
        UNSOUND,
    ];
    let moves = [0x4f, 0x43, 0x50].map(moved);
    kinds.map(str::to_string).into_iter().chain(moves)
}

fn moved(mark: u32) -> String {
    format!("a move of a sheet with mark {mark:x}")
}

/// Counts what a closing is an example of. It is the next call of the card.
pub fn note(card: &Card, call: Call, counts: &mut Counts) {
    if call.kind.without_summary() != Kind::Close {
        return;
    }
    match card.first(call) {
        None => {}
        Some(Row::SavedState) => return counts.note_kind(UNSOUND),
        Some(_) => return,
    }
    let mut after = card.clone();
    after.call(call, &mut []);
    let pairs = card.sheets.iter().zip(&after.sheets);
    let held: Vec<(&Entry, u32)> = pairs
        .filter(|(before, _)| before.length > 0)
        .map(|(before, after)| (before, before.start - after.start))
        .collect();
    let any = |test: fn(&Entry, u32) -> bool| held.iter().any(|(sheet, by)| test(sheet, *by));
    let ordered = held.windows(2).all(|two| two[0].0.start < two[1].0.start);
    let longest = |card: &Card| survey(&card.map, card.n).longest;
    let kinds = [
        (held.is_empty(), NOTHING),
        (!held.is_empty() && !any(|_, by| by > 0), NO_GAP),
        (card.free == 0, FULL),
        (!ordered && any(|_, by| by > 0), OTHER_ORDER),
        (any(|sheet, by| 0 < by && by < sheet.length), OVERLAP),
        (any(|sheet, by| by > sheet.length), APART),
        (
            held.len() > 3 && held.iter().all(|(_, by)| *by == 1),
            ONE_BLOCK,
        ),
        (any(|_, by| by == 0) && any(|_, by| by > 0), STAYS),
        (longest(&after) > longest(card), LONGER),
        (call.kind.has_summary() && !card.has_own_summary(), FALSE),
    ];
    for (_, kind) in kinds.iter().filter(|(holds, _)| *holds) {
        counts.note_kind(kind);
    }
    for (sheet, _) in held.iter().filter(|(_, by)| *by > 0) {
        counts.note_kind(&moved(sheet.mark));
    }
}
