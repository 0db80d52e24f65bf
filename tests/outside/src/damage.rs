//! States that no list of calls leads to: damaged by another hand. Document 01's table says what each call answers there,
//! too.

use crate::beside::{Beside, Compared};
use crate::closing::close_of;
use crate::counts::Counts;
use crate::dates::some_term;
use crate::generate::Generator;
use crate::lists::{small_size, used_card};
use crate::spoiled::spoil;
use bitwise::blocks::words_of;
use bitwise::call::{call, Bytes, Call, Kind, PAYLOAD};
use bitwise::card::{entry, sealed, Card};
use bitwise::random::Random;
use bitwise::summary::summary_numbers;

pub const MARKS: [u32; 4] = [0x41, 0x50, 0x4f, 0x43];
const OTHER_MARKS: [u32; 6] = [0, 1, 0x42, 0x6f, 0x4f4f, 0x4300_0000];

/// Random damage to a small card, and some calls on what is left.
pub fn damaged(seed: u64, margin: usize, counts: &mut Counts) -> Result<(), String> {
    let mut random = Random::of(seed);
    let size = small_size(&mut random);
    damaged_card(size, margin, random, counts)
}

/// The same with a card of full size.
pub fn damaged_full(seed: u64, margin: usize, counts: &mut Counts) -> Result<(), String> {
    let mut random = Random::of(seed);
    let n = random.one(&[262144, 262143, 262081]);
    damaged_card((n, 1024), margin, random, counts)
}

fn damaged_card(
    (n, c): (usize, usize),
    margin: usize,
    random: Random,
    counts: &mut Counts,
) -> Result<(), String> {
    let generator = &mut Generator::new(random);
    let card = &mut state(n, c, generator);
    let log = &mut format!("a card of {n} blocks and {c} sheets after some calls\n");
    let result = (0..4).try_for_each(|_| {
        if generator.random.chance(2, 3) {
            *log += &format!("    {}\n", fit(card, (n, c)));
        }
        for _ in 0..generator.random.within(1, 4) {
            *log += &format!("    {}\n", damage(card, generator));
        }
        calls_on(card, margin, generator, log, counts)
    });
    result.map_err(|error| format!("{log}the last of these: {error}"))
}

/// What a list of calls on the model alone leaves.
pub fn state(n: usize, c: usize, generator: &mut Generator) -> Card {
    let mut card = used_card(n, c, &mut generator.random);
    card.call(call(Kind::Fresh, 0, n as u32), &mut []);
    for _ in 0..generator.random.within(5, 80) {
        let call = generator.call(&card);
        card.call(call, &mut call.slice());
    }
    card
}

fn calls_on(
    card: &mut Card,
    margin: usize,
    generator: &mut Generator,
    log: &mut String,
    counts: &mut Counts,
) -> Result<(), String> {
    let mut beside = Beside::new(card.clone(), margin, Compared::All);
    for _ in 0..generator.random.within(4, 16) {
        let call = match generator.random.within(0, 60) {
            0 => {
                let n = card.n as u32;
                call(Kind::Fresh, 0, generator.around(n))
            }
            1..=5 => call(Kind::SummaryBuild, 0, 0),
            6..=8 => call(Kind::SummaryCheck, 0, 0),
            9..=34 => generator.call(&beside.card).with_summary(),
            35..=38 => close_of(&beside.card),
            39..=40 => close_of(&beside.card).with_summary(),
            _ => generator.call(&beside.card),
        };
        let call = other_scratch(call, &mut generator.random);
        let call = call.by(generator.role(call.kind));
        *log += &format!("    {call}\n");
        beside.call(call, counts)?;
    }
    *card = beside.card;
    Ok(())
}

/// In 1 case of 4 a closing is lent another scratch.
fn other_scratch(call: Call, random: &mut Random) -> Call {
    if !call.kind.has_scratch() || random.chance(3, 4) {
        return call;
    }
    let number = random.one(&[0, 1, call.number + 1, call.number.saturating_sub(1), 64, 65]);
    Call { number, ..call }
}

/// Makes all lengths and limits as they should be, so that not row 1 alone is the answer.
fn fit(card: &mut Card, (n, c): (usize, usize)) -> String {
    card.n = n;
    card.free = card.free.min(n);
    card.map.resize(64 * words_of(n), true);
    card.sheets.resize(c, entry(0x41, 0, 0));
    card.bytes.resize(512 * n, 0xee);
    card.summary.resize(summary_numbers(n), 1);
    format!(
        "lengths and limits are as they should be, the free count is {}",
        card.free
    )
}

/// Changes something, and says what.
pub fn damage(card: &mut Card, generator: &mut Generator) -> String {
    match generator.random.within(0, 23) {
        20..=22 => damage_summary(card, generator),
        0..=3 => damage_map(card, generator),
        4..=8 => damage_entry(card, generator),
        9..=13 => damage_block(card, generator),
        14..=16 => damage_free_count(card, generator),
        17 => damage_n(card, generator),
        _ => damage_length(card, generator),
    }
}

fn damage_map(card: &mut Card, generator: &mut Generator) -> String {
    let random = &mut generator.random;
    if card.map.is_empty() {
        return "nothing".to_string();
    }
    let (start, most) = (random.within(0, card.map.len()), random.one(&[1, 4, 70]));
    let end = card.map.len().min(start + random.within(1, most + 1));
    let free = random.chance(1, 2);
    card.map[start..end].fill(free);
    let state = if free { "free" } else { "taken" };
    format!("blocks {start} to {} of the map become {state}", end - 1)
}

/// The summary is another one, or gets another length.
fn damage_summary(card: &mut Card, generator: &mut Generator) -> String {
    let (numbers, random) = (card.summary.len(), &mut generator.random);
    if numbers > 0 && random.chance(3, 4) {
        let (kind, summary) = spoil(card, random);
        card.summary = summary;
        return format!("the summary becomes {kind}");
    }
    let right = summary_numbers(card.n.min(400));
    let length = random.one(&[0, right, right - 1, right + 1, 2 * right + 3, right / 2]);
    card.summary
        .resize(length, random.one(&[0, 1, 70, u32::MAX]));
    format!("lent are {length} numbers of the summary")
}

fn damage_entry(card: &mut Card, generator: &mut Generator) -> String {
    if card.sheets.is_empty() {
        return "nothing".to_string();
    }
    let sheet = generator.random.within(0, card.sheets.len());
    let other = generator.random.within(0, card.sheets.len());
    let mut e = card.sheets[sheet];
    let (start, length, n) = (e.start, e.length, card.n as u32);
    match generator.random.within(0, 8) {
        0 => e = entry(0, 0, 0),
        1 => e.mark = generator.random.one(&OTHER_MARKS),
        2 => e.mark = generator.random.one(&MARKS),
        3 => e.start = generator.around(start),
        4 => e.length = generator.around(length),
        5 => e.start = generator.around(n),
        6 => {
            e = entry(
                generator.random.one(&MARKS),
                generator.around(n - length.min(n)),
                generator.around(length),
            )
        }
        _ => e = card.sheets[other],
    }
    if generator.random.chance(1, 8) {
        let number = generator.random.one(&[u32::MAX, u32::MAX - 1, 1 << 31, n]);
        if generator.random.chance(1, 2) {
            e.start = number;
        } else {
            e.length = number;
        }
    }
    card.sheets[sheet] = e;
    format!(
        "entry {sheet} becomes mark {}, start {}, length {}",
        e.mark, e.start, e.length
    )
}

/// A block of the card, mostly one that a sheet holds, with the sheet and the place.
fn some_block(card: &Card, random: &mut Random) -> Option<(usize, u32, u32)> {
    if card.bytes.len() < 512 {
        return None;
    }
    let blocks = card.bytes.len() / 512;
    if let Some(sheet) = card
        .sheets
        .len()
        .checked_sub(1)
        .map(|last| random.within(0, last + 1))
    {
        let entry = card.sheets[sheet];
        let place = random.within(0, (entry.length as usize).clamp(1, blocks));
        let block = entry.start as usize + place;
        if block < blocks {
            return Some((block, sheet as u32, place as u32));
        }
    }
    Some((random.within(0, blocks), 0, 0))
}

fn damage_block(card: &mut Card, generator: &mut Generator) -> String {
    let random = &mut generator.random;
    let Some((block, sheet, place)) = some_block(card, random) else {
        return "nothing".to_string();
    };
    let bytes = &mut card.bytes[512 * block..512 * block + 512];
    match random.within(0, 7) {
        0 => bytes.fill(0),
        1 => bytes[random.one(&[0, 3, 7, 8, 503, 504, 507, 508, 511])] ^= 1 << random.within(0, 8),
        2 => bytes[random.within(0, 512)] ^= 1 << random.within(0, 8),
        3 => bytes.copy_from_slice(&sealed(sheet, place.wrapping_add(1), &[9; 496])),
        4 => bytes.copy_from_slice(&sealed(sheet.wrapping_add(1), place, &[9; 496])),
        5 => {
            let term = Some(some_term(random));
            let payload = Bytes { term, ..PAYLOAD };
            bytes.copy_from_slice(&sealed(sheet, place, &payload.contents()));
        }
        // The same sums modulo 65,521, and not the same numbers.
        _ => {
            bytes.copy_from_slice(&sealed(sheet, place, &[9; 496]));
            let at = random.one(&[504, 508]);
            let sum = u32::from_be_bytes(bytes[at..at + 4].try_into().unwrap());
            bytes[at..at + 4].copy_from_slice(&(sum + 65521).to_be_bytes());
        }
    }
    format!("block {block} is changed")
}

fn damage_free_count(card: &mut Card, generator: &mut Generator) -> String {
    let (n, free) = (card.n as u32, card.free as u32);
    let number = match generator.random.within(0, 5) {
        0 => 0,
        1 => generator.around(free),
        2 => generator.around(n),
        3 => generator.random.one(&[1, 2, 3, u32::MAX]),
        _ => generator.random.within(0, card.n + 1) as u32,
    };
    card.free = number as usize;
    format!("the free count becomes {number}")
}

/// Another n; in half the cases with a card of that size.
fn damage_n(card: &mut Card, generator: &mut Generator) -> String {
    let n = card.n as u32;
    let number = match generator.random.within(0, 3) {
        0 => generator.random.one(&[0, 1, 64, 262144, 262145, u32::MAX]),
        _ => generator.around(n),
    };
    card.n = number as usize;
    if card.n <= 400 && generator.random.chance(1, 2) {
        card.bytes.resize(512 * card.n, 0xee);
        return format!("n becomes {number}, and the card is so long");
    }
    format!("n becomes {number}")
}

/// A slice gets longer or shorter, or as long as n and c ask for.
fn damage_length(card: &mut Card, generator: &mut Generator) -> String {
    let n = card.n.min(400);
    match generator.random.within(0, 8) {
        0 => card.map.resize(
            generator
                .random
                .one(&[0, 64 * words_of(n) + 64, 64 * words_of(n).saturating_sub(1)]),
            true,
        ),
        1 => card
            .sheets
            .resize(generator.random.one(&[0, 1, 1024, 1025]), entry(0x41, 0, 0)),
        2 => card.bytes.resize(
            generator
                .random
                .one(&[0, 512 * n + 1, (512 * n).saturating_sub(1), 512 * n + 512]),
            0,
        ),
        3..=5 => card.map.resize(64 * words_of(n), true),
        _ => card.bytes.resize(512 * n, 0xee),
    }
    if card.sheets.is_empty() || card.sheets.len() > 1000 && generator.random.chance(1, 2) {
        card.sheets.resize(3, entry(0x41, 0, 0));
    }
    format!(
        "lent are {} words, {} entries, {} bytes",
        card.map.len() / 64,
        card.sheets.len(),
        card.bytes.len()
    )
}
