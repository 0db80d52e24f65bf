//! Maps of as many blocks as a card may have.

use super::command::*;

/// The most blocks that a card may have.
pub(super) const LIMIT: usize = 262144;

/// Runs at both ends of the map, short and long.
const RUNS: [(usize, usize); 16] = [
    (0, 200),
    (5, 205),
    (261944, 262144),
    (100001, 101001),
    (131008, 132008),
    (261144, 262144),
    (63, 100063),
    (162143, 262143),
    (162144, 262144),
    (1, 262144),
    (0, 262143),
    (0, 262144),
    (0, 0),
    (262079, 262144),
    (262080, 262144),
    (262081, 262144),
];

pub(super) fn full_maps() -> String {
    let all_gaps = (1..=18).flat_map(|last| (1..=18).map(move |gap| two_runs(last, gap)));
    let full = card(LIMIT);
    [
        format!("=262,144-blocks= {full}\n"),
        RUNS.map(|part| one_run(0, part)).concat(),
        RUNS.map(|part| one_run(u64::MAX, part)).concat(),
        [262144, 262143, 262081, 262080, 1].map(fresh_map).concat(),
        format!("{full}\n"),
        all_gaps.collect(),
    ]
    .concat()
}

/// A free run in a map whose even words are all alike and whose odd ones are all taken.
fn one_run(even: u64, (start, end): (usize, usize)) -> String {
    let marks = [
        by_turns(even, 0),
        run('f', start, end),
        run('t', start.saturating_sub(1), start),
    ];
    format!("{} {} c\n", marks.join(" "), around(end - start))
}

fn fresh_map(n: usize) -> String {
    format!("{} {} m{n} {} d c\n", card(n), held(), around(n))
}

/// A run of 60 blocks that ends with a word, and one of 100 that starts some words later: what was free before words that are
/// all taken must not count towards what is free behind them.
fn two_runs(last: usize, gap: usize) -> String {
    let (end, start) = (64 * last, 64 * (last + gap));
    let marks = format!(
        "{} {}",
        run('f', end - 60, end),
        run('f', start, start + 100)
    );
    format!("{NO_FREE} {marks} {} {} c\n", around(60), around(100))
}
