//! Dose counts of a payload (document 02, request (e)): every digit, length and count number, and random calls.

use crate::beside::same_slice;
use crate::counts::Counts;
use crate::library::{bytes, Lent};
use bitwise::counts::{bytes_of, read, write, Count, COUNTS, LARGEST, PAYLOAD};
use bitwise::random::Random;

/// What stands for absent in C, and goes with a refused read.
const ABSENT: u32 = 0xffff_ffff;

#[repr(C)]
#[derive(Clone, Copy, Debug, PartialEq)]
struct Reply {
    number: u32,
    hundredths: u32,
}

mod c {
    extern "C" {
        pub fn pagunlit_read_count(
            payload: *const u8,
            payloadlen: usize,
            which: u32,
        ) -> super::Reply;
        pub fn pagunlit_write_count(
            payload: *mut u8,
            payloadlen: usize,
            which: u32,
            hundredths: u32,
        ) -> u32;
    }
}

fn c_read(payload: &mut Lent<u8>, which: u32) -> Reply {
    unsafe { c::pagunlit_read_count(payload.at(), payload.len(), which) }
}

fn c_write(payload: &mut Lent<u8>, which: u32, hundredths: u32) -> u32 {
    unsafe { c::pagunlit_write_count(payload.at(), payload.len(), which, hundredths) }
}

/// The reply that document 02's answer is, as the header has it.
fn reply_of(answer: Result<Count, u32>) -> Reply {
    let (number, hundredths) = match answer {
        Ok(Count::Absent) => (0, ABSENT),
        Ok(Count::Hundredths(number)) => (0, number),
        Err(refusal) => (refusal, ABSENT),
    };
    Reply { number, hundredths }
}

fn count_from(hundredths: u32) -> Count {
    match hundredths {
        ABSENT => Count::Absent,
        number => Count::Hundredths(number),
    }
}

/// A read of a count, beside the model, which changes nothing.
fn reads(payload: &[u8], which: u32, margin: usize, counts: &mut Counts) -> Result<(), String> {
    counts.calls += 1;
    let mut lent = bytes(payload, margin);
    let (answer, expected) = (c_read(&mut lent, which), reply_of(read(payload, which)));
    if answer != expected {
        return Err(format!(
            "read of count {which} gave {answer:?}, and by document 02 {expected:?}: {payload:02x?}"
        ));
    }
    same_slice("payload", &lent, payload)
}

/// A write of a count, beside the model: its answer, and every byte of the payload and around it.
fn writes(
    payload: &mut [u8],
    which: u32,
    hundredths: u32,
    margin: usize,
    counts: &mut Counts,
) -> Result<(), String> {
    counts.calls += 1;
    let mut lent = bytes(payload, margin);
    let answer = c_write(&mut lent, which, hundredths);
    let expected = write(payload, which, count_from(hundredths))
        .err()
        .unwrap_or(0);
    if answer != expected {
        return Err(format!(
            "write of {hundredths} to count {which} of {} bytes gave {answer}, and by document 02 {expected}",
            payload.len()
        ));
    }
    same_slice("payload", &lent, payload)
}

/// A count written into a payload of digits, and the same count read.
pub fn written_and_read(
    which: u32,
    hundredths: u32,
    margin: usize,
    counts: &mut Counts,
) -> Result<(), String> {
    let mut payload = vec![0x77; PAYLOAD];
    writes(&mut payload, which, hundredths, margin, counts)?;
    reads(&payload, which, margin, counts)
}

/// A count of four bytes, read.
pub fn stored_and_read(
    which: u32,
    stored: u32,
    margin: usize,
    counts: &mut Counts,
) -> Result<(), String> {
    let mut payload = vec![0x77; PAYLOAD];
    let at = 4 * which as usize;
    payload[at..at + 4].copy_from_slice(&stored.to_be_bytes());
    reads(&payload, which, margin, counts)
}

/// All pairs of two neighbouring bytes of a count, among digits and among bytes of FF.
pub fn digits(margin: usize, counts: &mut Counts) -> Result<(), String> {
    for fill in [0x12, 0xff] {
        let mut payload = vec![fill; PAYLOAD];
        for at in 0..3 {
            for pair in 0..=u16::MAX {
                payload[40 + at..42 + at].copy_from_slice(&pair.to_be_bytes());
                reads(&payload, 10, margin, counts)?;
            }
            payload[40..44].fill(fill);
        }
    }
    Ok(())
}

/// All lengths up to 600 and all count numbers up to 200, and the largest; digits and others, numbers in and out of range.
pub fn lengths(margin: usize, counts: &mut Counts) -> Result<(), String> {
    let numbers = [0, 1, 12345, LARGEST, LARGEST + 1, ABSENT - 1, ABSENT];
    let ends = [0, 1, COUNTS - 1, COUNTS, COUNTS + 1, 1 << 30, u32::MAX];
    for length in 0..=600 {
        for which in ends {
            for fill in [0x00, 0xff, 0x0a] {
                reads(&vec![fill; length], which, margin, counts)?;
            }
            for number in numbers {
                writes(&mut vec![0x77; length], which, number, margin, counts)?;
            }
        }
    }
    for which in 0..=200 {
        let mut payload: Vec<u8> = (0..PAYLOAD)
            .map(|i| (i % 10 * 16 + i / 10 % 10) as u8)
            .collect();
        reads(&payload, which, margin, counts)?;
        for number in numbers {
            writes(&mut payload, which, number, margin, counts)?;
        }
    }
    Ok(())
}

/// Random bytes among the digits of one payload, and reads and writes of its counts, all of them looked at after each write.
pub fn random(seed: u64, margin: usize, counts: &mut Counts) -> Result<(), String> {
    let random = &mut Random::of(seed);
    let length = if random.chance(1, 8) {
        random.within(0, 600)
    } else {
        PAYLOAD
    };
    let mut payload: Vec<u8> = (0..length).map(|_| digit_pair(random)).collect();
    for _ in 0..20 {
        if length > 0 && random.chance(1, 2) {
            let at = random.within(0, length);
            payload[at] = random.one(&[0xff, 0x0a, 0xa0, 0x9f, random.0 as u8]);
        }
        let which = random.within(0, 130) as u32;
        let number = match random.within(0, 4) {
            0 => ABSENT,
            1 => random.draw() as u32,
            _ => random.within(0, LARGEST as usize + 100) as u32,
        };
        writes(&mut payload, which, number, margin, counts)?;
        for which in 0..=COUNTS {
            reads(&payload, which, margin, counts)?;
        }
    }
    Ok(())
}

fn digit_pair(random: &mut Random) -> u8 {
    (16 * random.within(0, 10) + random.within(0, 10)) as u8
}

/// Each number from `from` to `before` - 1 written and read back, and its bytes as the model has them now and then.
fn back(from: u32, before: u32, counts: &mut Counts) -> Result<(), String> {
    let mut lent = bytes(&[0; PAYLOAD], 0);
    for number in from..before {
        let which = number % COUNTS;
        let (written, reply) = (c_write(&mut lent, which, number), c_read(&mut lent, which));
        if written != 0 || reply != reply_of(Ok(Count::Hundredths(number))) {
            return Err(format!(
                "{number} written gave {written}, and read {reply:?}"
            ));
        }
        let at = 4 * which as usize;
        if number % 1009 == 0
            && Some(&lent.now()[at..at + 4]) != bytes_of(Count::Hundredths(number)).as_deref()
        {
            return Err(format!(
                "{number} is written as {:02x?}",
                &lent.now()[at..at + 4]
            ));
        }
    }
    counts.calls += 2 * (before - from) as u64;
    Ok(())
}

/// A part of the numbers, another one for each seed, and absent.
pub fn numbers(seed: u64, margin: usize, counts: &mut Counts) -> Result<(), String> {
    let from = (seed % 100) as u32 * 1_000_000;
    back(from, from + 1_000_000, counts)?;
    writes(&mut vec![0; PAYLOAD], 5, ABSENT, margin, counts)
}

/// All numbers. It takes some seconds and is run by hand: tests/outside/run again all-numbers 1.
pub fn all_numbers(counts: &mut Counts) -> Result<(), String> {
    back(0, LARGEST + 1, counts)
}
