//! Summaries beside the words of document 02, (j).

use super::*;
use crate::blocks::{all, least_fit, plain, survey, to_words, TAKEN};
use crate::random::{runs, words, Random};

/// Maps of every kind of random.rs, of a number of words.
fn maps(w: usize) -> impl Iterator<Item = Vec<bool>> {
    let of_words = (0..6).map(move |kind| words(w, kind, 7 + kind as u64));
    let of_runs = [3, 60, 130, 1000].map(|longest| runs(w, longest, 5));
    let whole = [FREE, TAKEN].map(|state| vec![state; 64 * w]);
    of_words.chain(of_runs).chain(whole)
}

/// Numbers of blocks: some of each number of words up to 9, and of some more.
fn sizes() -> impl Iterator<Item = usize> {
    let words = (0..9).chain([15, 16, 17, 31, 32, 40]);
    words.flat_map(|w| [1, 2, 31, 63, 64].map(|more| 64 * w + more))
}

/// "With p the least power of two not below w, it holds 2p - 1 groups of three 32-bit numbers."
#[test]
fn lengths_of_summaries() {
    let lengths = [
        (1, 3),
        (64, 3),
        (65, 9),
        (128, 9),
        (129, 21),
        (256, 21),
        (257, 45),
        (131072, 12285),
        (131073, 24573),
        (262144, 24573),
    ];
    for (n, numbers) in lengths {
        assert_eq!(summary_numbers(n), numbers, "n {n}");
        assert_eq!(build(&vec![FREE; 64 * words_of(n)], n).len(), numbers);
    }
}

/// "Group 0 is all words, groups 2g + 1 and 2g + 2 the first and second half of group g", "down to one word".
#[test]
fn words_of_groups() {
    let words: Vec<Range<usize>> = (0..7).map(|g| words_in(g, 4)).collect();
    assert_eq!(words, [0..4, 0..2, 2..4, 0..1, 1..2, 2..3, 3..4]);
    for p in [1, 2, 8, 4096] {
        let last: Vec<Range<usize>> = (p - 1..2 * p - 1).map(|g| words_in(g, p)).collect();
        let each: Vec<Range<usize>> = (0..p).map(|word| word..word + 1).collect();
        assert_eq!(last, each);
    }
}

/// Head, tail and longest of a list of blocks, one by one.
fn of_blocks(blocks: &[bool]) -> [u32; 3] {
    let length = blocks.len();
    let heads = (0..=length).filter(|&k| all(blocks, 0, k, FREE));
    let tails = (0..=length).filter(|&k| all(blocks, length - k, length, FREE));
    let numbers = [heads.max(), tails.max()].map(|number| number.unwrap() as u32);
    [
        numbers[0],
        numbers[1],
        survey(blocks, length).longest as u32,
    ]
}

/// "For each group of words the free run at its head, at its tail and its longest"; missing words, and blocks from n on, count
/// as taken.
#[test]
fn numbers_of_groups() {
    for n in sizes().filter(|n| *n <= 640) {
        let w = words_of(n);
        for map in maps(w) {
            let mut blocks = map[..n].to_vec();
            blocks.resize(64 * power(w), TAKEN);
            let summary = build(&map, n);
            for g in 0..2 * power(w) - 1 {
                let words = words_in(g, power(w));
                let numbers = of_blocks(&blocks[64 * words.start..64 * words.end]);
                assert_eq!(summary[3 * g..3 * g + 3], numbers, "n {n}, group {g}");
            }
        }
    }
}

/// All maps of one word that have their free blocks among the first four, the last four and two in the middle.
#[test]
fn numbers_of_a_word() {
    let places = [0, 1, 2, 3, 31, 32, 60, 61, 62, 63];
    for bits in 0..1 << places.len() {
        let mut map = vec![TAKEN; 64];
        for (i, b) in places.iter().enumerate() {
            map[*b] = bits >> i & 1 == 1;
        }
        assert_eq!(build(&map, 64), of_blocks(&map));
    }
}

/// "Each group is built from its two halves, down to one word."
#[test]
fn groups_are_what_their_halves_give() {
    for n in sizes() {
        let w = words_of(n);
        for map in maps(w) {
            let summary = build(&map, n);
            for g in 0..power(w) - 1 {
                let half = 64 * words_in(2 * g + 1, power(w)).len() as u32;
                let at = |g: usize| -> [u32; 3] { summary[3 * g..3 * g + 3].try_into().unwrap() };
                let ([head, front, some], [back, tail, more]) = (at(2 * g + 1), at(2 * g + 2));
                let whole = [
                    if head == half { half + back } else { head },
                    if tail == half { half + front } else { tail },
                    some.max(more).max(front + back),
                ];
                assert_eq!(at(g), whole, "n {n}, group {g}");
            }
        }
    }
}

/// Group 0 of two words and 70 blocks, of which 3 and 60 to 65 are taken: its numbers written out.
#[test]
fn a_summary_written_out() {
    let mut map = vec![FREE; 128];
    map[3] = TAKEN;
    map[60..66].fill(TAKEN);
    let summary = [3, 0, 56, 3, 0, 56, 0, 0, 4];
    assert_eq!(build(&map, 70), summary);
    assert!(own(&map, 70, &summary));
    // Bits from n on say nothing.
    map[70..].fill(TAKEN);
    assert!(own(&map, 70, &summary));
    map[69] = TAKEN;
    assert!(!own(&map, 70, &summary));
    assert!(!own(&map, 71, &summary));
}

/// A summary with any number of it off, or one number longer or shorter, is not the map's own.
#[test]
fn no_other_summary_is_own() {
    for n in [1, 64, 70, 130, 200, 300] {
        for map in maps(words_of(n)) {
            let summary = build(&map, n);
            assert!(own(&map, n, &summary));
            for at in 0..summary.len() {
                let mut off = summary.clone();
                off[at] = off[at].wrapping_add(1);
                assert!(!own(&map, n, &off), "n {n}, number {at}");
            }
            assert!(!own(&map, n, &summary[1..]));
            assert!(!own(&map, n, &[&summary[..], &[0]].concat()));
        }
    }
}

/// A summary built anew differs only in groups above changed words.
#[test]
fn other_groups_stay() {
    let random = &mut Random::of(3);
    for n in sizes() {
        let w = words_of(n);
        for map in maps(w) {
            let mut after = map.clone();
            let start = random.within(0, n);
            let end = (start + random.within(0, 100)).min(n);
            after[start..end].fill(random.chance(1, 2));
            let above = above_changed(&map, &after, n);
            let (old, new) = (build(&map, n), build(&after, n));
            let differ = (0..old.len()).filter(|&i| old[i] != new[i]);
            assert!(differ.into_iter().all(|i| above.contains(&i)), "n {n}");
            let (words, others) = (to_words(&map), to_words(&after));
            let changed = (0..w).filter(|&word| words[word] != others[word]);
            let groups = |word: usize| {
                (0..2 * power(w) - 1).filter(move |&g| words_in(g, power(w)).contains(&word))
            };
            let mut expected: Vec<usize> = changed
                .flat_map(groups)
                .flat_map(|g| 3 * g..3 * g + 3)
                .collect();
            expected.sort();
            expected.dedup();
            assert_eq!(above, expected, "n {n}");
        }
    }
}

/// Group 0's longest is below k exactly if there is no fit for k.
#[test]
fn group_0_tells_whether_there_is_a_fit() {
    for n in sizes().filter(|n| *n <= 400) {
        for map in maps(words_of(n)) {
            let longest = build(&map, n)[2] as usize;
            for k in 1..=n + 1 {
                let fit = least_fit(&map[..n], plain(n), k);
                assert_eq!(fit.is_some(), k <= longest, "n {n}, k {k}");
            }
        }
    }
}
