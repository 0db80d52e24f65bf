//! What the check catches (document 02, request (i)): sealed blocks of any sheet, place and payload with one byte changed, two
//! changed, or two neighbours traded; and three changed bytes that pass, where the promise ends.

use crate::counts::Counts;
use crate::library::{bytes, check};
use bitwise::call::Bytes;
use bitwise::card::sealed;
use bitwise::random::Random;

/// A sealed block: any numbers, and payloads of zeros, of 255s and of random bytes.
fn block(random: &mut Random) -> Vec<u8> {
    let number = |random: &mut Random| random.draw() as u32 >> random.within(0, 32);
    let payload = Bytes {
        seed: random.within(0, 1000) as u32 / 4,
        length: 496,
        term: None,
    };
    sealed(number(random), number(random), &payload.contents())
}

/// What `check` answers.
fn checked(block: &[u8], counts: &mut Counts) -> u32 {
    counts.calls += 1;
    check(&mut bytes(block, 0))
}

fn refused(block: &[u8], what: &str, counts: &mut Counts) -> Result<(), String> {
    match checked(block, counts) {
        0 => Ok(()),
        answer => Err(format!("check gave {answer} for {what}: {block:02x?}")),
    }
}

/// Every byte of a sealed block set to each of its 255 other values.
pub fn one_byte(seed: u64, _: usize, counts: &mut Counts) -> Result<(), String> {
    let mut block = block(&mut Random::of(seed));
    if checked(&block, counts) != 1 {
        return Err(format!("check refused a sealed block: {block:02x?}"));
    }
    for at in 0..512 {
        for change in 1..=255 {
            block[at] ^= change;
            refused(&block, &format!("byte {at} changed"), counts)?;
            block[at] ^= change;
        }
    }
    Ok(())
}

/// All unequal neighbours of a sealed block traded, the check bytes included.
pub fn trades(seed: u64, _: usize, counts: &mut Counts) -> Result<(), String> {
    let mut block = block(&mut Random::of(seed));
    for at in (0..511)
        .filter(|&at| block[at] != block[at + 1])
        .collect::<Vec<_>>()
    {
        block.swap(at, at + 1);
        refused(&block, &format!("bytes {at} and {} traded", at + 1), counts)?;
        block.swap(at, at + 1);
    }
    Ok(())
}

/// A thousand random changes of two bytes, in half of them such that A stays as it was.
pub fn two_bytes(seed: u64, _: usize, counts: &mut Counts) -> Result<(), String> {
    let random = &mut Random::of(seed);
    let whole = block(random);
    for turn in 0..1000 {
        let (first, second) = (random.within(0, 512), random.within(0, 511));
        let second = if second < first { second } else { second + 1 };
        let change = random.within(1, 256) as u8;
        let mut block = whole.clone();
        block[first] = block[first].wrapping_add(change);
        block[second] = match turn % 2 {
            0 => block[second].wrapping_sub(change),
            _ => block[second].wrapping_add(random.within(1, 256) as u8),
        };
        refused(
            &block,
            &format!("bytes {first} and {second} changed"),
            counts,
        )?;
    }
    Ok(())
}

/// Where it ends: three neighbours changed by +1, -2 and +1 leave A and B as they were, and the check holds.
pub fn three_bytes(counts: &mut Counts) -> Result<(), String> {
    let mut block = sealed(0, 0, &[2; 496]);
    for at in [8, 100, 501] {
        block[at..at + 3].copy_from_slice(&[3, 0, 3]);
        if checked(&block, counts) != 1 {
            return Err(format!("three bytes from {at} on were seen: {block:02x?}"));
        }
        block[at..at + 3].fill(2);
    }
    Ok(())
}
