//! Saves and loads for which two or more rows hold at once, made so: what is lent and the image are changed until they do.

use crate::counts::Counts;
use crate::images::{load_by, other_tables, save_by};
use crate::together::{card, wrong_limit};
use bitwise::blocks::scratch_words;
use bitwise::call::{LOAD, SAVE};
use bitwise::card::{entry, Card};
use bitwise::image::{blocks_of, body_of, framed, image_of};
use bitwise::random::Random;
use bitwise::roles::{admitted, turned_away};
use bitwise::rows::{pairs, Row};

const BLOCK: usize = 512;
const PART: usize = 496;

/// Each pair of rows of save and of load, in 1 case of 3 with a third row.
pub fn images_together(seed: u64, margin: usize, counts: &mut Counts) -> Result<(), String> {
    let random = &mut Random::of(seed);
    for (name, order) in [SAVE, LOAD] {
        for (first, other) in pairs(name, order) {
            let mut rows = vec![first, other];
            let third = random.one(order);
            if random.chance(1, 3) && !rows.contains(&third) {
                rows.push(third);
            }
            let result = match name {
                "save" => one_save(&mut rows, margin, random, counts),
                _ => one_load(&mut rows, margin, random, counts),
            };
            result.map_err(|error| format!("{rows:?}: {error}"))?;
        }
    }
    Ok(())
}

fn one_save(
    rows: &mut [Row],
    margin: usize,
    random: &mut Random,
    counts: &mut Counts,
) -> Result<(), String> {
    let mut card = card(random);
    let mut scratch = scratch_words(card.n);
    let mut length = BLOCK * blocks_of(card.n, card.sheets.len());
    let role = role_of(SAVE.0, rows, random);
    card.bytes = Vec::new();
    // The state before the limits, so that they are still wrong at the end.
    rows.sort_by_key(|row| *row != Row::SavedState);
    for row in rows.iter() {
        match row {
            Row::SavedState => unsound(&mut card, random),
            Row::Role => {}
            Row::ScratchLength => scratch = another(scratch, 1, random),
            Row::ImageLength => length = another(length, BLOCK, random),
            _ => wrong_limit(*row, &mut card, random),
        }
    }
    save_by(role, &card, scratch, length, margin, counts).map(|_| ())
}

/// A role that may make the call, unless row 21 is to hold.
fn role_of(call: &str, rows: &[Row], random: &mut Random) -> u32 {
    if rows.contains(&Row::Role) {
        random.one(&turned_away(call))
    } else {
        random.one(&admitted(call))
    }
}

/// A length that is not the one given.
fn another(length: usize, step: usize, random: &mut Random) -> usize {
    let less = length.saturating_sub(random.one(&[1, step]));
    random.one(&[
        length + 1,
        length + step,
        if less == length { 1 } else { less },
    ])
}

/// A state becomes one that is not sound.
fn unsound(card: &mut Card, random: &mut Random) {
    let some = random.within(0, card.sheets.len());
    let block = random.within(0, card.n);
    match random.within(0, 5) {
        0 => card.free -= 1,
        1 => card.map[block] = !card.map[block],
        2 => card.sheets[some] = entry(0, 0, 0),
        3 => card.sheets[some].length += 1,
        _ => card.sheets[some].mark = 0x42,
    }
}

/// A load of an image, and what it is lent.
struct Load {
    body: Vec<u8>,
    image: Vec<u8>,
    lent: Card,
    scratch: usize,
}

fn one_load(
    rows: &mut [Row],
    margin: usize,
    random: &mut Random,
    counts: &mut Counts,
) -> Result<(), String> {
    let mut card = card(random);
    // In half the cases the image has several blocks.
    let sheets = card.sheets.len() + random.one(&[0, 30, 80]);
    card.sheets.resize(sheets, entry(0x41, 0, 0));
    if rows.contains(&Row::LoadedState) {
        unsound(&mut card, random);
    }
    let mut tried = Load {
        body: body_of(&card),
        image: Vec::new(),
        lent: other_tables(card.n, sheets),
        scratch: scratch_words(card.n),
    };
    for row in rows.iter() {
        change_body(*row, &mut tried, &card, random);
    }
    tried.image = image_of(&tried.body);
    // A frame is sealed anew before its check is spoilt, and the image is cut last.
    rows.sort_by_key(|row| match row {
        Row::ImageLength => 2,
        Row::FrameCheck => 1,
        _ => 0,
    });
    for row in rows.iter() {
        change_frames(*row, &mut tried.image, random);
        change_lent(*row, &mut tried, random);
    }
    let (role, lent) = (role_of(LOAD.0, rows, random), &mut tried.lent);
    load_by(role, lent, &tried.image, tried.scratch, margin, counts).map(|_| ())
}

fn renumber(body: &mut [u8], at: usize, number: u32) {
    body[at..at + 4].copy_from_slice(&number.to_be_bytes());
}

/// The head, the number of image blocks that it asks for, and the fill.
fn change_body(row: Row, tried: &mut Load, card: &Card, random: &mut Random) {
    let body = &mut tried.body;
    let fill = 12 + 12 * card.sheets.len() + card.map.len() / 8;
    match row {
        Row::HeadLimits => match random.within(0, 3) {
            0 => renumber(body, 0, random.one(&[0, 262145, u32::MAX])),
            1 => renumber(body, 8, random.one(&[0, 1025, u32::MAX])),
            _ => renumber(body, 4, random.one(&[card.n as u32 + 1, u32::MAX])),
        },
        Row::HeadTotal => match random.within(0, 4) {
            0 => renumber(body, 0, 262144),
            1 => renumber(body, 8, 1024),
            _ => body.extend([0; PART]),
        },
        Row::Fill if fill < body.len() => {
            let last = body.len() - 1;
            let at = random.within(fill, last + 1);
            body[random.one(&[fill, at, last])] = random.one(&[1, 128, 255]);
        }
        _ => {}
    }
}

/// A frame that is wrong in one thing alone, anywhere in the image; and the image's length.
fn change_frames(row: Row, image: &mut Vec<u8>, random: &mut Random) {
    let total = image.len() / BLOCK;
    let b = random.within(0, total);
    let part = image[BLOCK * b + 8..BLOCK * b + 504].to_vec();
    let number = |at: usize| u32::from_be_bytes(image[at..at + 4].try_into().unwrap()) as usize;
    let (own, own_total) = (number(BLOCK * b), number(BLOCK * b + 4));
    let other = random.one(&[1, 2, 91, 92]);
    match row {
        Row::FrameNumber => {
            let frame = framed(own + other, own_total, &part);
            image[BLOCK * b..BLOCK * (b + 1)].copy_from_slice(&frame);
        }
        Row::FrameTotal => {
            let frame = framed(own, own_total + other, &part);
            image[BLOCK * b..BLOCK * (b + 1)].copy_from_slice(&frame);
        }
        Row::FrameCheck => image[BLOCK * b + random.within(504, 512)] ^= 1 << random.within(0, 8),
        Row::ImageLength => match random.within(0, 4) {
            0 => image.push(0),
            1 => image.resize(92 * BLOCK, 0),
            2 => image.truncate(image.len() - 1),
            _ => image.extend([0x11; 511]),
        },
        _ => {}
    }
}

fn change_lent(row: Row, tried: &mut Load, random: &mut Random) {
    match row {
        Row::MapLength => {
            let words = another(tried.lent.map.len() / 64, 1, random);
            tried.lent.map.resize(64 * words, true);
        }
        Row::CatalogueLength => {
            let sheets = another(tried.lent.sheets.len(), 1, random);
            tried.lent.sheets.resize(sheets, entry(0x50, 0, 0));
        }
        Row::ScratchLength => tried.scratch = another(tried.scratch, 1, random),
        _ => {}
    }
}
