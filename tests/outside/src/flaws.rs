//! Each way in which an image can be wrong, alone.

use crate::pauses::is_paused_course;
use bitwise::blocks::{FREE, TAKEN};
use bitwise::card::{entry, Card, Entry};
use bitwise::image::{body_of, framed, image_of};
use bitwise::random::Random;

const BLOCK: usize = 512;
const PART: usize = 496;

/// A flaw, the number that it is refused with, and the image that has it, if the state admits it.
pub type Flaw = (&'static str, u32, fn(&Card, &mut Random) -> Option<Vec<u8>>);

/// The image of a state with a change.
fn changed(card: &Card, change: impl FnOnce(&mut Card)) -> Option<Vec<u8>> {
    let mut card = card.clone();
    change(&mut card);
    Some(image_of(&body_of(&card)))
}

/// The image of a body in which 4 bytes are another number.
fn renumbered(card: &Card, at: usize, number: u32) -> Option<Vec<u8>> {
    let mut body = body_of(card);
    body[at..at + 4].copy_from_slice(&number.to_be_bytes());
    Some(image_of(&body))
}

/// A sheet whose entry is as it is wanted.
fn sheet_with(card: &Card, wanted: fn(&Entry) -> bool, random: &mut Random) -> Option<usize> {
    let sheets = 0..card.sheets.len();
    let some: Vec<usize> = sheets.filter(|&s| wanted(&card.sheets[s])).collect();
    (!some.is_empty()).then(|| random.one(&some))
}

/// A sheet with blocks: Open, Complete or a paused course.
fn holder(card: &Card, random: &mut Random) -> Option<usize> {
    sheet_with(card, |entry| entry.length > 0, random)
}

/// A sheet without blocks: Absent or Paused.
fn without_blocks(card: &Card, random: &mut Random) -> Option<usize> {
    sheet_with(card, |entry| entry.length == 0, random)
}

/// An image block with another number or total, sealed.
fn reframed(card: &Card, number: usize, total: usize, random: &mut Random) -> Option<Vec<u8>> {
    let mut image = image_of(&body_of(card));
    let blocks = image.len() / BLOCK;
    let b = random.within(0, blocks);
    let part = image[BLOCK * b + 8..BLOCK * b + 504].to_vec();
    let frame = framed(b + number, blocks + total, &part);
    image[BLOCK * b..BLOCK * (b + 1)].copy_from_slice(&frame);
    Some(image)
}

#[rustfmt::skip]
pub const FLAWS: &[Flaw] = &[
    ("an entry of three zeros", 14, |card, random| {
        let sheet = without_blocks(card, random)?;
        changed(card, |card| card.sheets[sheet] = entry(0, 0, 0))
    }),
    ("a mark that is none", 14, |card, random| {
        let (sheet, mark) = (random.within(0, card.sheets.len()), random.one(&[0, 1, 0x42, 0x4f00, u32::MAX]));
        changed(card, |card| card.sheets[sheet].mark = mark)
    }),
    ("Absent or Paused with a start", 14, |card, random| {
        let sheet = without_blocks(card, random)?;
        changed(card, |card| card.sheets[sheet].start = 1)
    }),
    ("Absent or Paused with a length", 14, |card, random| {
        let sheet = without_blocks(card, random)?;
        changed(card, |card| card.sheets[sheet].length = 1)
    }),
    ("Paused with a start and no length", 14, |card, random| {
        let (sheet, start) = (without_blocks(card, random)?, random.within(1, card.n + 1) as u32);
        changed(card, |card| card.sheets[sheet] = entry(0x50, start, 0))
    }),
    ("Paused with a free block", 14, |card, random| {
        let sheet = without_blocks(card, random)?;
        let block = (0..card.n).find(|&b| card.map[b] == FREE)?;
        changed(card, |card| card.sheets[sheet] = entry(0x50, block as u32, 1))
    }),
    ("Paused with a block that another sheet has", 14, |card, random| {
        let (sheet, other) = (without_blocks(card, random)?, card.sheets[holder(card, random)?]);
        changed(card, |card| card.sheets[sheet] = entry(0x50, other.start, other.length))
    }),
    ("a paused course with another mark", 14, |card, random| {
        let sheet = sheet_with(card, is_paused_course, random)?;
        let mark = random.one(&[0, 0x41, 0x51, 0x5000]);
        changed(card, |card| card.sheets[sheet].mark = mark)
    }),
    ("Open or Complete without a block", 14, |card, random| {
        let sheet = without_blocks(card, random)?;
        let mark = random.one(&[0x4f, 0x43]);
        changed(card, |card| card.sheets[sheet] = entry(mark, 0, 0))
    }),
    ("an extent that ends behind n", 14, |card, random| {
        let (sheet, n) = (holder(card, random)?, card.n as u32);
        changed(card, |card| card.sheets[sheet].length = n + 1 - card.sheets[sheet].start)
    }),
    ("an extent whose end has 33 bits", 14, |card, random| {
        let sheet = without_blocks(card, random)?;
        let start = random.within(1, card.n + 1) as u32;
        let mark = random.one(&[0x4f, 0x43, 0x50]);
        changed(card, |card| card.sheets[sheet] = entry(mark, start, u32::MAX - start + 1))
    }),
    ("a free block in an extent", 14, |card, random| {
        let held = card.sheets[holder(card, random)?];
        let block = held.start as usize + random.within(0, held.length as usize);
        changed(card, |card| { card.map[block] = FREE; card.free += 1 })
    }),
    ("two sheets with the same blocks", 14, |card, random| {
        let (sheet, other) = (without_blocks(card, random)?, holder(card, random)?);
        changed(card, |card| card.sheets[sheet] = card.sheets[other])
    }),
    ("two sheets with one block in common", 14, |card, random| {
        let (sheet, other) = (without_blocks(card, random)?, card.sheets[holder(card, random)?]);
        let block = random.one(&[other.start, other.start + other.length - 1]);
        changed(card, |card| card.sheets[sheet] = entry(0x4f, block, 1))
    }),
    ("a taken block that no sheet has", 14, |card, _| {
        let block = (0..card.n).rfind(|&b| card.map[b] == FREE)?;
        changed(card, |card| { card.map[block] = TAKEN; card.free -= 1 })
    }),
    ("a free bit from n on", 14, |card, random| {
        if card.n == card.map.len() { return None; }
        let block = random.within(card.n, card.map.len());
        changed(card, |card| card.map[block] = FREE)
    }),
    ("a free bit from n on that is counted", 14, |card, random| {
        if card.n == card.map.len() || card.free == card.n { return None; }
        let block = random.within(card.n, card.map.len());
        changed(card, |card| { card.map[block] = FREE; card.free += 1 })
    }),
    ("a free count too small", 14, |card, _| renumbered(card, 4, card.free.checked_sub(1)? as u32)),
    ("a free count too large", 14, |card, _| renumbered(card, 4, card.free as u32 + 1)),
    ("a free count of the last number", 14, |card, _| renumbered(card, 4, u32::MAX)),
    ("a fill that is not zero", 14, |card, random| {
        let mut body = body_of(card);
        let fill = 12 + 12 * card.sheets.len() + card.map.len() / 8;
        if fill == body.len() { return None; }
        let some = random.within(fill, body.len());
        let at = random.one(&[fill, some, body.len() - 1]);
        body[at] = random.one(&[1, 128, 255]);
        Some(image_of(&body))
    }),
    ("n of 0", 14, |card, _| renumbered(card, 0, 0)),
    ("n of 262145", 14, |card, _| renumbered(card, 0, 262145)),
    ("n of the last number", 14, |card, _| renumbered(card, 0, u32::MAX)),
    ("n of another total", 14, |card, _| renumbered(card, 0, if card.n == 262144 { 1 } else { 262144 })),
    ("c of 0", 14, |card, _| renumbered(card, 8, 0)),
    ("c of 1025", 14, |card, _| renumbered(card, 8, 1025)),
    ("c of the last number", 14, |card, _| renumbered(card, 8, u32::MAX)),
    ("c of another total", 14, |card, _| renumbered(card, 8, if card.sheets.len() == 1024 { 1 } else { 1024 })),
    ("a block too many", 14, |card, _| {
        let mut body = body_of(card);
        body.extend([0; PART]);
        (body.len() / PART <= 91).then(|| image_of(&body))
    }),
    ("a block too few", 14, |card, _| {
        let body = body_of(card);
        (body.len() > PART).then(|| image_of(&body[..body.len() - PART]))
    }),
    ("another block number", 13, |card, random| reframed(card, 1, 0, random)),
    ("another total", 13, |card, random| reframed(card, 0, 1, random)),
    ("two blocks in each other's place", 13, |card, _| {
        let mut image = image_of(&body_of(card));
        if image.len() == BLOCK { return None; }
        image.rotate_left(BLOCK);
        Some(image)
    }),
    ("a sum that is right modulo 65,521 only", 13, |card, random| {
        let mut image = image_of(&body_of(card));
        let at = image.len() - random.one(&[4, 8]);
        let sum = u32::from_be_bytes(image[at..at + 4].try_into().unwrap());
        image[at..at + 4].copy_from_slice(&(sum + 65521).to_be_bytes());
        Some(image)
    }),
    ("a block number and n of 0", 13, |card, _| {
        let mut image = renumbered(card, 0, 0)?;
        image[3] ^= 1;
        Some(image)
    }),
];

/// All flaws must have been met.
pub fn expected() -> impl Iterator<Item = &'static str> {
    let others = [
        "save, a sound state",
        "load, what was saved",
        "save, a damaged state",
        "save, a paused course",
        "load, a paused course",
    ];
    FLAWS.iter().map(|(name, ..)| *name).chain(others)
}
