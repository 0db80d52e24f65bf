//! Every number that a call compares, changed by 1, 64, 256, 65,536 and 2^31: a build that compares a part of a number, as its
//! low byte, would take it for the one that it was.

use crate::counts::Counts;
use crate::doses;
use crate::generate::accepted;
use crate::images::{load, other_tables, save};
use crate::lengths::{four_sheets, one};
use crate::singles::single_check;
use bitwise::blocks::scratch_words;
use bitwise::calendar::date;
use bitwise::call::{call, dated, Call, Kind, CALLS, LARGEST};
use bitwise::card::{entry, sealed, Card};
use bitwise::image::{blocks_of, body_of, framed, image_of};
use bitwise::random::Random;

const CHANGES: [u32; 5] = [1, 64, 256, 65_536, 1 << 31];

/// A number with each of these more, less, and in its bits alone.
fn others(number: u32) -> impl Iterator<Item = u32> {
    CHANGES.into_iter().flat_map(move |change| {
        [
            number.wrapping_add(change),
            number.wrapping_sub(change),
            number ^ change,
        ]
    })
}

const ROLE: &str = "another number: a role";
const SHEET: &str = "another number: the sheet of a call";
const COUNT: &str = "another number: n, k, m, a place or the words of a scratch";
const START: &str = "another number: the start of an accept";
const FIGURES: &str = "another number: a figure of a placed reserve";
const DATE: &str = "another number: a year, a month or a day";
const LIMIT: &str = "another number: a limit, from what the wing would hold";
const SHAPE: &str = "another number: the shape's blocks or free count";
const ENTRY: &str = "another number: a mark, a start or a length of an entry";
const BLOCK: &str = "another number: the sheet or the place that a block carries";
const SUMS: &str = "another number: a sum that a block carries";
const DAYS: &str = "another number: a first or a last day";
const SUMMARY: &str = "another number: a number of a summary";
const FRAME: &str = "another number: the number or the total of a frame";
const IMAGE: &str = "another number: one in the head or the entries of an image";
const DOSES: &str = "another number: of a dose count, or the count itself";

/// What must have been changed.
pub fn expected() -> impl Iterator<Item = String> {
    let kinds = [
        ROLE, SHEET, COUNT, START, FIGURES, DATE, LIMIT, SHAPE, ENTRY, BLOCK, SUMS, DAYS, SUMMARY,
        FRAME, IMAGE, DOSES,
    ];
    kinds.map(str::to_string).into_iter()
}

/// A number of a call, and what it is.
type Field = (&'static str, fn(&mut Call) -> &mut u32);

/// The numbers that a call has.
fn fields(call: Call) -> Vec<Field> {
    let kind = call.kind;
    let mut fields: Vec<Field> = vec![(ROLE, |call| &mut call.role)];
    if kind.has_sheet() {
        fields.push((SHEET, |call| &mut call.sheet));
    }
    if kind.has_number() {
        fields.push((COUNT, |call| &mut call.number));
    }
    match kind.without_summary() {
        Kind::Accept => fields.push((START, |call| &mut call.start)),
        Kind::ReservePlaced => fields.extend([
            (
                FIGURES,
                (|call| &mut call.figures.from) as fn(&mut Call) -> &mut u32,
            ),
            (FIGURES, |call| &mut call.figures.before),
            (FIGURES, |call| &mut call.figures.step),
        ]),
        Kind::ShowDated => fields.extend([
            (
                DATE,
                (|call| &mut call.date.year) as fn(&mut Call) -> &mut u32,
            ),
            (DATE, |call| &mut call.date.month),
            (DATE, |call| &mut call.date.day),
        ]),
        _ => {}
    }
    fields
}

/// Calls of every kind that would be accepted, with every number of theirs and of what they are lent.
pub fn of_calls(seed: u64, margin: usize, counts: &mut Counts) -> Result<(), String> {
    let whole = four_sheets();
    for (kind, ..) in CALLS {
        let call = accepted(kind, &whole, &mut Random::of(seed));
        for (what, field) in fields(call) {
            for number in others(*field(&mut call.clone())) {
                let mut other = call;
                *field(&mut other) = number;
                // A scratch of 2^31 words cannot be lent.
                if !kind.has_scratch() || other.number <= 100_000 {
                    one(&whole, other, margin, counts)?;
                    counts.note_kind(what);
                }
            }
        }
        of_limits(&whole, call, margin, counts)?;
        of_states(&whole, call, margin, counts)?;
    }
    Ok(())
}

/// The limit of the wing from what it would hold, from one less, and from 0; those of the other wings are 0.
fn of_limits(card: &Card, call: Call, margin: usize, counts: &mut Counts) -> Result<(), String> {
    if !call.kind.has_limits() {
        return Ok(());
    }
    let held: u32 = card.sheets.iter().map(|entry| entry.length).sum();
    let most = held + call.number;
    let refused = others(most - 1).chain(others(0));
    for limit in others(most).chain([most]).chain(refused) {
        let mut limits = [0; LARGEST.len()];
        limits[0] = limit;
        one(card, call.with_limits(limits), margin, counts)?;
        counts.note_kind(LIMIT);
    }
    Ok(())
}

/// A card, with a number of its shape or of a sheet's entry changed.
fn other_states(card: &Card, sheet: usize) -> Vec<(&'static str, Card)> {
    let mut cards = Vec::new();
    let mut add = |what, change: &dyn Fn(&mut Card)| {
        let mut card = card.clone();
        change(&mut card);
        cards.push((what, card));
    };
    for n in others(card.n as u32) {
        add(SHAPE, &|card| card.n = n as usize);
    }
    for free in others(card.free as u32) {
        add(SHAPE, &|card| card.free = free as usize);
    }
    let stands = card.sheets[sheet];
    for mark in others(stands.mark) {
        add(ENTRY, &|card| card.sheets[sheet].mark = mark);
    }
    for start in others(stands.start) {
        add(ENTRY, &|card| card.sheets[sheet].start = start);
    }
    for length in others(stands.length) {
        add(ENTRY, &|card| card.sheets[sheet].length = length);
    }
    cards
}

fn of_states(whole: &Card, call: Call, margin: usize, counts: &mut Counts) -> Result<(), String> {
    for (what, card) in other_states(whole, call.sheet as usize) {
        one(&card, call, margin, counts)?;
        counts.note_kind(what);
    }
    Ok(())
}

/// The card with another block at a place of a sheet.
fn with_block(card: &Card, sheet: usize, place: u32, block: &[u8]) -> Card {
    let mut card = card.clone();
    let at = 512 * (card.sheets[sheet].start + place) as usize;
    card.bytes[at..at + 512].copy_from_slice(block);
    card
}

/// The calls that look at the blocks of the complete sheet 0 and of the open sheet 1, of four sheets.
const LOOKS: [Call; 5] = [
    call(Kind::Show, 0, 0),
    call(Kind::Show, 0, 1),
    dated(0, 0, date(2024, 2, 29)),
    dated(0, 1, date(2024, 3, 6)),
    call(Kind::Complete, 1, 0),
];

/// Blocks that carry another sheet, another place, other sums or other days, each sealed but for the sums.
pub fn of_blocks(margin: usize, counts: &mut Counts) -> Result<(), String> {
    let whole = four_sheets();
    for call in LOOKS {
        let sheet = call.sheet;
        for place in 0..whole.sheets[sheet as usize].length {
            let at = 512 * (whole.sheets[sheet as usize].start + place) as usize;
            let block = &whole.bytes[at..at + 512];
            let payload = &block[8..504];
            let carries = others(sheet).map(|other| sealed(other, place, payload));
            let places = others(place).map(|other| sealed(sheet, other, payload));
            for other in carries.chain(places) {
                let card = with_block(&whole, sheet as usize, place, &other);
                one(&card, call, margin, counts)?;
                counts.note_kind(BLOCK);
            }
            for other in other_sums(block) {
                let card = with_block(&whole, sheet as usize, place, &other);
                one(&card, call, margin, counts)?;
                single_check(other, margin)?;
                counts.note_kind(SUMS);
            }
        }
    }
    of_days(&whole, margin, counts)
}

/// A block with another number in one of four places of four bytes, the stored sums.
fn other_sums(block: &[u8]) -> Vec<Vec<u8>> {
    let numbers = [504, 508].into_iter().flat_map(|at| {
        let stored = u32::from_be_bytes(block[at..at + 4].try_into().expect("four bytes"));
        others(stored).map(move |other| (at, other))
    });
    let changed = numbers.map(|(at, other)| {
        let mut block = block.to_vec();
        block[at..at + 4].copy_from_slice(&other.to_be_bytes());
        block
    });
    changed.collect()
}

/// Terms whose first or last day is another than the day that is asked for, or than they are.
fn of_days(whole: &Card, margin: usize, counts: &mut Counts) -> Result<(), String> {
    let at = 512 * whole.sheets[0].start as usize;
    let (first, last) = (8825, 8831);
    for (day, date) in [(first, date(2024, 2, 29)), (last, date(2024, 3, 6))] {
        let firsts = others(day).map(|other| (other, last));
        let lasts = others(day).map(|other| (first, other));
        for (first, last) in firsts.chain(lasts).chain(others(day).map(|d| (d, d))) {
            let mut payload = whole.bytes[at + 8..at + 504].to_vec();
            payload[..4].copy_from_slice(&first.to_be_bytes());
            payload[4..8].copy_from_slice(&last.to_be_bytes());
            let card = with_block(whole, 0, 0, &sealed(0, 0, &payload));
            for place in 0..2 {
                one(&card, dated(0, place, date), margin, counts)?;
                counts.note_kind(DAYS);
            }
        }
    }
    Ok(())
}

/// The map's own summary with another number in it.
pub fn of_summaries(margin: usize, counts: &mut Counts) -> Result<(), String> {
    let whole = four_sheets();
    for (at, number) in whole.summary.iter().enumerate() {
        for other in others(*number) {
            let mut card = whole.clone();
            card.summary[at] = other;
            one(&card, call(Kind::SummaryCheck, 0, 0), margin, counts)?;
            counts.note_kind(SUMMARY);
        }
    }
    Ok(())
}

/// Images of one frame, of two and of four: another number or total in a frame, or another number in the body, sealed.
pub fn of_images(margin: usize, counts: &mut Counts) -> Result<(), String> {
    for c in [4, 60, 130] {
        let mut card = four_sheets();
        (card.bytes, card.summary) = (Vec::new(), Vec::new());
        card.sheets.resize(c, entry(0x41, 0, 0));
        let (n, body) = (card.n, body_of(&card));
        let mut images = other_frames(&image_of(&body));
        images.extend(other_bodies(&body, 12 + 12 * c.min(12)));
        for (what, image) in images {
            let lent = &mut other_tables(n, c);
            load(lent, &image, scratch_words(n), margin, counts)?;
            counts.note_kind(what);
        }
        for (what, other) in other_states(&card, 0) {
            save(
                &other,
                scratch_words(n),
                512 * blocks_of(n, c),
                margin,
                counts,
            )?;
            counts.note_kind(what);
        }
    }
    Ok(())
}

fn other_frames(image: &[u8]) -> Vec<(&'static str, Vec<u8>)> {
    let total = image.len() / 512;
    let mut images = Vec::new();
    for b in 0..total {
        let numbers = others(b as u32).map(|number| (number, total as u32));
        let totals = others(total as u32).map(|total| (b as u32, total));
        for (number, total) in numbers.chain(totals) {
            let frame = framed(
                number as usize,
                total as usize,
                &image[512 * b + 8..512 * b + 504],
            );
            let mut image = image.to_vec();
            image[512 * b..512 * (b + 1)].copy_from_slice(&frame);
            images.push((FRAME, image));
        }
    }
    images
}

/// The numbers of the first bytes of a body, each changed.
fn other_bodies(body: &[u8], bytes: usize) -> Vec<(&'static str, Vec<u8>)> {
    let mut images = Vec::new();
    for at in (0..bytes).step_by(4) {
        let number = u32::from_be_bytes(body[at..at + 4].try_into().expect("four bytes"));
        for other in others(number) {
            let mut body = body.to_vec();
            body[at..at + 4].copy_from_slice(&other.to_be_bytes());
            images.push((IMAGE, image_of(&body)));
        }
    }
    images
}

/// Dose counts: another count, another number of hundredths, and other bytes.
pub fn of_doses(margin: usize, counts: &mut Counts) -> Result<(), String> {
    for which in [0, 5, 123] {
        for number in [0, 12_345_678, 99_999_999, u32::MAX] {
            for (which, number) in others(which)
                .map(|other| (other, number))
                .chain(others(number).map(|other| (which, other)))
            {
                doses::written_and_read(which, number, margin, counts)?;
                counts.note_kind(DOSES);
            }
        }
        for stored in [0, 0x1234_5678, 0x9999_9999, u32::MAX] {
            for other in others(stored) {
                doses::stored_and_read(which, other, margin, counts)?;
                counts.note_kind(DOSES);
            }
        }
    }
    Ok(())
}
