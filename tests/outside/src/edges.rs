//! Runs of blocks that start and end on both sides of the ends of words: marked as taken by an accept and as free by a release,
//! and tested by both and by a standing, with other blocks around them.

use crate::counts::Counts;
use crate::lengths::one;
use bitwise::blocks::mark;
use bitwise::call::{accept, call, Kind};
use bitwise::card::{entry, Card};

/// Both sides of the ends of four words.
const EDGES: [usize; 17] = [
    0, 1, 2, 62, 63, 64, 65, 66, 126, 127, 128, 129, 191, 192, 193, 255, 256,
];

const BLOCKS: usize = 256;

const MARKED: &str = "marks: a run accepted, then released, with other blocks around it";
const TESTED_FREE: &str = "tests: a run that must be all free, and a block more on either side";
const TESTED_TAKEN: &str = "tests: a run that must be all taken, and a block more on either side";

pub fn expected() -> impl Iterator<Item = String> {
    [MARKED, TESTED_FREE, TESTED_TAKEN]
        .map(str::to_string)
        .into_iter()
}

/// The blocks of a map of 256 whatever a run of it is: all taken, all free, every other one free, or every third.
const AROUND: [fn(usize) -> bool; 4] = [|_| false, |_| true, |b| b % 2 == 0, |b| b % 3 == 0];

/// A card of 256 blocks around a run in one state, with one sheet.
fn card_around(around: fn(usize) -> bool, run: (usize, usize), free: bool) -> Card {
    let mut map: Vec<bool> = (0..BLOCKS).map(around).collect();
    mark(&mut map, run.0, run.1, free);
    Card {
        n: BLOCKS,
        free: map.iter().filter(|&&free| free).count(),
        map,
        sheets: vec![entry(0x41, 0, 0)],
        bytes: vec![0x5a; 512 * BLOCKS],
        summary: Vec::new(),
    }
}

/// The run, with a block more before it, behind it, and both, as far as the card has them.
fn with_more((start, end): (usize, usize)) -> [(u32, u32); 4] {
    let before = start.saturating_sub(1);
    let behind = (end + 1).min(BLOCKS);
    [
        (start, end),
        (before, end),
        (start, behind),
        (before, behind),
    ]
    .map(|(start, end)| (start as u32, (end - start) as u32))
}

pub fn runs(margin: usize, counts: &mut Counts) -> Result<(), String> {
    for (i, &start) in EDGES.iter().enumerate() {
        for &end in &EDGES[i + 1..] {
            for around in AROUND {
                run(around, (start, end), margin, counts)?;
            }
        }
    }
    Ok(())
}

/// A run among other blocks: free, and then taken by a sheet.
fn run(
    around: fn(usize) -> bool,
    run: (usize, usize),
    margin: usize,
    counts: &mut Counts,
) -> Result<(), String> {
    let free = card_around(around, run, true);
    for (start, k) in with_more(run) {
        one(&free, accept(0, start, k), margin, counts)?;
        counts.note_kind(TESTED_FREE);
    }
    let mut taken = card_around(around, run, false);
    for (start, k) in with_more(run) {
        taken.sheets[0] = entry(0x43, start, k);
        one(&taken, call(Kind::Standing, 0, 0), margin, counts)?;
        one(&taken, call(Kind::Release, 0, 0), margin, counts)?;
        counts.note_kind(TESTED_TAKEN);
    }
    counts.note_kind(MARKED);
    Ok(())
}
