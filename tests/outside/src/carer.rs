//! What a carer can learn (document 02, (n)): "Two cards that agree in length, shape, map, catalogue and every block of
//! Complete sheets give a carer's equal calls equal answers if the show buffers lent are equally long and, if these are equal,
//! equal show buffers, however the other blocks differ." The same calls are made of the library for two such cards, and
//! nothing is asked but that.

use crate::beside::library_of;
use crate::counts::Counts;
use crate::damage::damage;
use crate::generate::{accepted, Generator};
use crate::library::{bytes, words, Library, Outcome};
use crate::together::card;
use bitwise::call::{Bytes, Call, Kind, CALLS};
use bitwise::card::{sealed, Card};
use bitwise::random::Random;
use bitwise::roles::{CARER, OF_CARER};

const BLOCK: usize = 512;

/// Whether a block is one of a Complete sheet, damaged or not.
fn of_complete(card: &Card, block: usize) -> bool {
    let mut complete = card.sheets.iter().filter(|entry| entry.mark == 0x43);
    complete.any(|entry| {
        let start = entry.start as usize;
        (start..start + entry.length as usize).contains(&block)
    })
}

/// A block with other bytes: any, zeros, or a sound one of some sheet and place.
fn other_block(card: &Card, random: &mut Random) -> Vec<u8> {
    let payload = Bytes {
        seed: random.draw() as u32 | 4,
        length: 496,
        term: random.chance(1, 2).then_some((0, u32::MAX)),
    };
    match random.within(0, 4) {
        0 => vec![0; BLOCK],
        1 => (0..BLOCK).map(|_| (random.draw() >> 33) as u8).collect(),
        _ => {
            let sheet = random.within(0, card.sheets.len().max(1)) as u32;
            sealed(sheet, random.within(0, 3) as u32, &payload.contents())
        }
    }
}

/// The card with other bytes in all blocks, or in one of them, that no Complete sheet has; also in what is lent behind the last
/// whole block.
fn with_other_blocks(card: &Card, random: &mut Random) -> Card {
    let mut other = card.clone();
    let blocks = card.bytes.len() / BLOCK;
    let only = random.within(0, blocks + 1);
    let all = random.chance(1, 2);
    for block in (0..blocks).filter(|block| !of_complete(card, *block)) {
        if all || block == only {
            let bytes = other_block(card, random);
            other.bytes[BLOCK * block..BLOCK * (block + 1)].copy_from_slice(&bytes);
        }
    }
    other.bytes[BLOCK * blocks..].fill(random.draw() as u8);
    other
}

/// A carer's call of the library: what it gave, and left in the buffer.
fn made(library: &mut Library, call: Call, buffer: &[u8], margin: usize) -> (Outcome, Vec<u8>) {
    let lent = &mut bytes(buffer, margin);
    let scratch = if call.kind.has_scratch() {
        call.number
    } else {
        0
    };
    library.scratch = words(&vec![0x55; scratch as usize], margin);
    let outcome = library.call(call.by(CARER), lent);
    (outcome, lent.now().to_vec())
}

const OF_DAMAGED: &str = "a carer's call of a damaged state";
const OTHER_BUFFER: &str = "a carer's call with another buffer of that length";

fn answered(name: &str, number: u32) -> String {
    format!("a carer's {name} answered with {number}")
}

/// What must have been met: every answer that a carer's calls can have, and 21 of a call that is not a carer's.
pub fn expected() -> impl Iterator<Item = String> {
    let calls = CALLS.iter().filter(|(_, name, _)| OF_CARER.contains(name));
    let answers = calls.flat_map(|(_, name, rows)| {
        let mut numbers: Vec<u32> = rows[1..].iter().map(|row| row.number()).collect();
        numbers.push(0);
        numbers.sort();
        numbers.dedup();
        numbers.into_iter().map(|number| answered(name, number))
    });
    let others = [answered("show", 21), answered("complete", 21)];
    let some = [OF_DAMAGED, OTHER_BUFFER].map(str::to_string);
    answers.chain(others).chain(some)
}

/// A call of any kind, mostly one of a carer's: one that would be done on the card before it was damaged, or any.
fn some_call(card: &Card, whole: &Card, generator: &mut Generator) -> Call {
    let of_carer = [
        Kind::ShowDated,
        Kind::ShowDated,
        Kind::Standing,
        Kind::Survey,
    ];
    let kinds: Vec<Kind> = CALLS.iter().map(|(kind, ..)| *kind).collect();
    let random = &mut generator.random;
    let kind = if random.chance(3, 4) {
        random.one(&of_carer)
    } else {
        random.one(&kinds)
    };
    let call = match random.within(0, 3) {
        0 => generator.call(card),
        _ => accepted(kind, whole, random),
    };
    let random = &mut generator.random;
    let sheet = match random.within(0, 6) {
        0 => random.within(0, card.sheets.len() + 2) as u32,
        _ => call.sheet,
    };
    let number = match random.within(0, 8) {
        0 if !call.kind.has_scratch() => random.within(0, 4) as u32,
        _ => call.number,
    };
    Call {
        sheet,
        number,
        ..call
    }
}

/// A list of a carer's calls, made of two cards that agree in all that a carer may learn of.
pub fn learns(seed: u64, margin: usize, counts: &mut Counts) -> Result<(), String> {
    let generator = &mut Generator::new(Random::of(seed));
    let whole = card(&mut generator.random);
    let mut one = whole.clone();
    let mut log = String::new();
    if generator.random.chance(1, 2) {
        for _ in 0..generator.random.within(1, 3) {
            log += &format!("    {}\n", damage(&mut one, generator));
        }
    }
    let other = with_other_blocks(&one, &mut generator.random);
    let (first, second) = (
        &mut library_of(&one, margin),
        &mut library_of(&other, margin),
    );
    for _ in 0..20 {
        let call = some_call(&one, &whole, generator);
        log += &format!("    {}\n", call.by(CARER));
        same_of_both(first, second, call, margin, counts)
            .map_err(|error| format!("{log}{error}"))?;
        if one != whole {
            counts.note_kind(OF_DAMAGED);
        }
    }
    unchanged(first, &one)?;
    unchanged(second, &other)
}

/// Equal answers and equal buffers; and equal answers where the buffer of one has other bytes.
fn same_of_both(
    first: &mut Library,
    second: &mut Library,
    call: Call,
    margin: usize,
    counts: &mut Counts,
) -> Result<(), String> {
    let buffer = call.slice();
    let (outcome, left) = made(first, call, &buffer, margin);
    counts.calls += 3;
    counts.note_kind(&answered(call.kind.name(), outcome.number));
    if made(second, call, &buffer, margin) != (outcome, left) {
        return Err("the answers or the buffers of the two cards differ".to_string());
    }
    let other_bytes: Vec<u8> = buffer.iter().map(|byte| !byte).collect();
    if !buffer.is_empty() {
        counts.note_kind(OTHER_BUFFER);
    }
    if made(second, call, &other_bytes, margin).0 != outcome {
        return Err("the answers to equally long buffers differ".to_string());
    }
    Ok(())
}

/// A carer's calls change nothing of what is lent.
fn unchanged(library: &Library, card: &Card) -> Result<(), String> {
    let lent = library_of(card, 0);
    let same = library.map.now() == lent.map.now()
        && library.catalogue.now() == lent.catalogue.now()
        && library.card.now() == lent.card.now()
        && library.summary.now() == lent.summary.now();
    if same {
        return Ok(());
    }
    Err("a carer's calls changed what was lent".to_string())
}
