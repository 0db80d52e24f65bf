//! Lists of calls from a fresh card, on small cards and on cards of full size.

use crate::beside::{Beside, Compared};
use crate::counts::Counts;
use crate::generate::Generator;
use crate::offers::Offers;
use crate::pauses;
use crate::roles;
use crate::shares;
use bitwise::blocks::words_of;
use bitwise::call::{call, Call, Kind};
use bitwise::card::{entry, Card};
use bitwise::random::Random;
use bitwise::roles::{admitted, turned_away};
use bitwise::summary::summary_numbers;

/// A card whose map, catalogue, bytes and summary held something before, and whose shape is anything.
pub fn used_card(n: usize, c: usize, random: &mut Random) -> Card {
    let sheet = |x: u64| entry(x as u32, (x >> 20) as u32, (x >> 40) as u32);
    Card {
        n: random.draw() as u32 as usize,
        free: random.draw() as u32 as usize,
        map: (0..64 * words_of(n)).map(|_| random.chance(1, 2)).collect(),
        sheets: (0..c).map(|_| sheet(random.draw())).collect(),
        bytes: (0..64 * n)
            .flat_map(|_| random.draw().to_be_bytes())
            .collect(),
        summary: (0..summary_numbers(n))
            .map(|_| random.draw() as u32)
            .collect(),
    }
}

/// A size of a small card: any, but often at the end of a word.
pub fn small_size(random: &mut Random) -> (usize, usize) {
    let n = match random.within(0, 8) {
        0 => random.one(&[1, 2, 3]),
        1..=2 => random.one(&[63, 64, 65, 127, 128, 129, 191, 192, 193]),
        _ => random.within(1, 201),
    };
    (n, random.within(1, 9))
}

/// Says which call of which list went wrong, with the list that leads to it.
pub fn in_list(n: usize, c: usize, calls: &[Call], error: String) -> String {
    let mut text = format!("fresh card of {n} blocks and {c} sheets\n");
    for call in calls {
        text += &format!("    {call}\n");
    }
    text + &format!("the last of these {} calls: {error}", calls.len())
}

/// Whether the calls of a list that change the map are lent a summary (document 02, (j)).
#[derive(Clone, Copy, PartialEq)]
enum Summary {
    Without,
    Kept,
}

/// A list of calls. All that the calls answer and leave is compared after every one.
fn list(
    (n, c): (usize, usize),
    length: usize,
    summary: Summary,
    (margin, compared): (usize, Compared),
    mut random: Random,
    counts: &mut Counts,
) -> Result<(), String> {
    let card = used_card(n, c, &mut random);
    let beside = &mut Beside::new(card, margin, compared);
    let generator = &mut Generator::new(random);
    if generator.random.chance(1, 2) {
        generator.limits = Some(shares::unchanging(n, &mut generator.random));
    }
    let calls = &mut Vec::new();
    let result = match summary {
        Summary::Without => follow(beside, (n, length), generator, calls, counts),
        Summary::Kept => follow_with_summary(beside, (n, length), generator, calls, counts),
    };
    result.map_err(|error| in_list(n, c, calls, error))
}

/// The list's fresh, by one who may make it; and another, by one who may not.
fn start(
    beside: &mut Beside,
    n: usize,
    random: &mut Random,
    counts: &mut Counts,
) -> Result<(), String> {
    let fresh = call(Kind::Fresh, 0, n as u32);
    let done = fresh.by(random.one(&admitted(fresh.kind.name())));
    roles::note(&beside.card, done, counts);
    beside.call(done, counts)?;
    beside.start_ledger();
    let other = fresh.by(random.one(&turned_away(fresh.kind.name())));
    beside.call(other, counts)
}

fn follow(
    beside: &mut Beside,
    (n, length): (usize, usize),
    generator: &mut Generator,
    calls: &mut Vec<Call>,
    counts: &mut Counts,
) -> Result<(), String> {
    start(beside, n, &mut generator.random, counts)?;
    let mut offers = Offers::default();
    for _ in 0..length {
        let call = generator.call(&beside.card);
        calls.push(call);
        shares::note(&beside.card, call, offers.has(call), counts);
        offers.note(&beside.card, call, counts);
        pauses::note(&beside.card, call, counts);
        roles::note(&beside.card, call, counts);
        beside.call(call, counts)?;
        within_limits(beside, generator)?;
    }
    beside.finish()
}

/// "Over a list with unchanging limits from a fresh card no wing ever holds more."
fn within_limits(beside: &Beside, generator: &Generator) -> Result<(), String> {
    match generator.limits {
        Some(limits) => beside.wings_within(limits),
        None => Ok(()),
    }
}

/// A list "from a summary built from the map [..] whose map-changing calls are these forms, each lent that summary as the one
/// before left it": after every call it is one built anew. The other calls of the list stand between them as they are.
fn follow_with_summary(
    beside: &mut Beside,
    (n, length): (usize, usize),
    generator: &mut Generator,
    calls: &mut Vec<Call>,
    counts: &mut Counts,
) -> Result<(), String> {
    start(beside, n, &mut generator.random, counts)?;
    beside.call(call(Kind::SummaryBuild, 0, 0), counts)?;
    for _ in 0..length {
        let call = match generator.random.within(0, 60) {
            0 => call(Kind::SummaryBuild, 0, 0).by(generator.role(Kind::SummaryBuild)),
            1..=4 => call(Kind::SummaryCheck, 0, 0).by(generator.role(Kind::SummaryCheck)),
            _ => generator.call(&beside.card).with_summary(),
        };
        calls.push(call);
        shares::note(&beside.card, call, false, counts);
        roles::note(&beside.card, call, counts);
        beside.call(call, counts)?;
        within_limits(beside, generator)?;
        beside.summary_is_own()?;
    }
    beside.finish()
}

pub fn small(seed: u64, margin: usize, counts: &mut Counts) -> Result<(), String> {
    let mut random = Random::of(seed);
    let size = small_size(&mut random);
    let length = random.within(100, 400);
    let compared = (margin, Compared::All);
    list(size, length, Summary::Without, compared, random, counts)
}

/// The same with a summary. Cards of one word have one group, so that some are larger.
pub fn small_with_summary(seed: u64, margin: usize, counts: &mut Counts) -> Result<(), String> {
    let mut random = Random::of(seed);
    let (mut n, c) = small_size(&mut random);
    if random.chance(1, 4) {
        n = random.within(200, 1100);
    }
    let length = random.within(100, 400);
    let compared = (margin, Compared::All);
    list((n, c), length, Summary::Kept, compared, random, counts)
}

/// Sheets of more than one wing, or of one that is just full, on a small card.
pub fn wings(seed: u64, margin: usize, counts: &mut Counts) -> Result<(), String> {
    let mut random = Random::of(seed);
    let sheets = [127, 128, 129, 130, 256, 257, 300, 640, 1023, 1024];
    let size = (random.within(20, 400), random.one(&sheets));
    let summary = random.one(&[Summary::Without, Summary::Kept]);
    let length = random.within(100, 300);
    list(
        size,
        length,
        summary,
        (margin, Compared::All),
        random,
        counts,
    )
}

/// A card of full size, or a few blocks less, with all its sheets.
pub fn full(seed: u64, margin: usize, counts: &mut Counts) -> Result<(), String> {
    full_list(4000, Summary::Without, margin, seed, counts)
}

/// The same with a summary.
pub fn full_with_summary(seed: u64, margin: usize, counts: &mut Counts) -> Result<(), String> {
    full_list(2000, Summary::Kept, margin, seed, counts)
}

fn full_list(
    length: usize,
    summary: Summary,
    margin: usize,
    seed: u64,
    counts: &mut Counts,
) -> Result<(), String> {
    let mut random = Random::of(seed);
    let size = (random.one(&[262144, 262144, 262143, 262081, 262080]), 1024);
    let compared = (margin, Compared::Part);
    list(size, length, summary, compared, random, counts)
}
