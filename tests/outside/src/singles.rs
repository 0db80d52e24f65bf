//! Single blocks: seal and check, of any numbers, bytes and lengths.

use crate::beside::same_slice;
use crate::counts::Counts;
use crate::library::{bytes, check, seal};
use bitwise::call::Bytes;
use bitwise::card::sealed;
use bitwise::random::Random;

/// Seals a payload to a block that held something, damages it or not, and checks it.
pub fn single(seed: u64, margin: usize, counts: &mut Counts) -> Result<(), String> {
    counts.calls += 2;
    let random = &mut Random::of(seed);
    let number = |random: &mut Random| random.draw() as u32 >> random.within(0, 32);
    let (sheet, place) = (number(random), number(random));
    let payload = slice(random, 496).contents();
    let before = slice(random, 512).contents();
    let (mut lent, mut block) = (bytes(&payload, margin), bytes(&before, margin));
    let answer = seal(sheet, place, &mut lent, &mut block);
    let fits = payload.len() == 496 && before.len() == 512;
    let expected = if fits {
        sealed(sheet, place, &payload)
    } else {
        before
    };
    if answer != if fits { 0 } else { 3 } {
        return Err(format!(
            "seal of {} and {} bytes gave {answer}",
            payload.len(),
            expected.len()
        ));
    }
    same_slice("payload", &lent, &payload)?;
    same_slice("block", &block, &expected)?;
    single_check(damaged(expected, random), margin)
}

/// A seed of any kind, and the length, but for 1 case of 8.
fn slice(random: &mut Random, length: usize) -> Bytes {
    let other = random.one(&[0, 1, 495, 496, 497, 503, 504, 511, 512, 513, 1024]);
    Bytes {
        seed: random.within(0, 1000) as u32 / 4,
        length: if random.chance(1, 8) { other } else { length },
        term: None,
    }
}

fn damaged(mut block: Vec<u8>, random: &mut Random) -> Vec<u8> {
    if !block.is_empty() && random.chance(1, 2) {
        let at = random.within(0, block.len());
        block[at] ^= random.draw() as u8;
    }
    block
}

pub fn single_check(block: Vec<u8>, margin: usize) -> Result<(), String> {
    let expected = match block.len() {
        512 => {
            let number = |at: usize| u32::from_be_bytes(block[at..at + 4].try_into().unwrap());
            (block == sealed(number(0), number(4), &block[8..504])) as u32
        }
        _ => 3,
    };
    let mut lent = bytes(&block, margin);
    let answer = check(&mut lent);
    if answer != expected {
        return Err(format!(
            "check gave {answer}, and by document 01 {expected}: {block:?}"
        ));
    }
    same_slice("block", &lent, &block)
}
