//! A map as a list of blocks, one entry a block: true is free, false is taken (document 01, "Map and search").

pub const FREE: bool = true;
pub const TAKEN: bool = false;

/// The blocks of a map: block b is bit 63 - (b mod 64) of word b div 64.
pub fn from_words(words: &[u64]) -> Vec<bool> {
    (0..64 * words.len())
        .map(|b| words[b / 64] >> (63 - b % 64) & 1 == 1)
        .collect()
}

/// The words of a map, each from its 64 blocks, the first the most significant.
pub fn to_words(map: &[bool]) -> Vec<u64> {
    map.chunks(64)
        .map(|blocks| blocks.iter().fold(0, |word, &free| 2 * word + free as u64))
        .collect()
}

/// How many words n blocks take.
pub fn words_of(n: usize) -> usize {
    n.div_ceil(64)
}

/// How many words the scratch of save and load has for a card of n blocks (document 02, (h)): 64, or the map's length if
/// that is less.
pub fn scratch_words(n: usize) -> usize {
    words_of(n).min(64)
}

/// The map of w words of a fresh card of n blocks.
pub fn fresh(n: usize, w: usize) -> Vec<bool> {
    (0..64 * w).map(|b| b < n).collect()
}

/// Whether the blocks from start to end - 1 are all in a state.
pub fn all(map: &[bool], start: usize, end: usize, state: bool) -> bool {
    map[start..end].iter().all(|&block| block == state)
}

/// The blocks from start to end - 1 get a state.
pub fn mark(map: &mut [bool], start: usize, end: usize, state: bool) {
    map[start..end].fill(state);
}

/// The figures of a reserve (document 02, (a)): a fit starts at or after `from` and on a multiple of `step`, and start + k is
/// at most `before`.
#[derive(Clone, Copy, Debug, PartialEq)]
pub struct Figures {
    pub from: u32,
    pub before: u32,
    pub step: u32,
}

pub const fn figures(from: u32, before: u32, step: u32) -> Figures {
    Figures { from, before, step }
}

/// The figures of the plain reserve and of a search: 0, n and 1.
pub const fn plain(n: usize) -> Figures {
    figures(0, n as u32, 1)
}

/// Whether a number is a multiple of another. The only multiple of 0 is 0.
fn is_multiple(number: usize, of: usize) -> bool {
    number == 0 || of != 0 && number % of == 0
}

/// The least fit of the figures for k ≥ 1 in a map of the card's n blocks. Goes from block to block and counts the free ones in
/// a row, from `from` on: where there are k of them or more, the last k are a run, and the first such run that starts on a
/// multiple is the lowest.
pub fn least_fit(map: &[bool], figures: Figures, k: usize) -> Option<usize> {
    let [from, before, step] =
        [figures.from, figures.before, figures.step].map(|figure| figure as usize);
    let mut row = 0;
    for b in from..before.min(map.len()) {
        row = if map[b] == FREE { row + 1 } else { 0 };
        if row >= k && is_multiple(b + 1 - k, step) {
            return Some(b + 1 - k);
        }
    }
    None
}

/// The space behind a start (document 02, (b)): the number of free blocks from it to the next taken block or n, in a map of the
/// card's n blocks.
pub fn space(map: &[bool], start: usize) -> usize {
    let free = map[start..].iter().take_while(|&&block| block == FREE);
    free.count()
}

/// What a survey answers.
#[derive(Debug, PartialEq)]
pub struct Counts {
    pub free: usize,
    pub runs: usize,
    pub longest: usize,
}

/// The survey of the first n blocks: taken blocks part them into runs.
pub fn survey(map: &[bool], n: usize) -> Counts {
    let runs: Vec<usize> = map[..n]
        .split(|&block| block == TAKEN)
        .map(|run| run.len())
        .filter(|&length| length > 0)
        .collect();
    Counts {
        free: runs.iter().sum(),
        runs: runs.len(),
        longest: runs.iter().max().copied().unwrap_or(0),
    }
}

#[cfg(test)]
mod tests {
    use super::*;

    fn with_free(n: usize, free: &[std::ops::RangeInclusive<usize>]) -> Vec<bool> {
        (0..n)
            .map(|b| free.iter().any(|run| run.contains(&b)))
            .collect()
    }

    /// All maps of n blocks.
    fn all_maps(n: usize) -> impl Iterator<Item = Vec<bool>> {
        (0..1usize << n).map(move |x| (0..n).map(|b| x >> b & 1 == 1).collect())
    }

    #[test]
    fn searches_of_document_01s_table() {
        let rows = [
            (1, vec![0..=0], 1, Some(0)),
            (1, vec![], 1, None),
            (64, vec![0..=63], 64, Some(0)),
            (64, vec![0..=63], 65, None),
            (70, vec![0..=69], 70, Some(0)),
            (128, vec![60..=69], 9, Some(60)),
            (128, vec![10..=12, 60..=69], 3, Some(10)),
            (128, vec![64..=127], 64, Some(64)),
            (192, vec![63..=128], 66, Some(63)),
            (192, vec![63..=128], 67, None),
        ];
        for (n, free, k, result) in rows {
            assert_eq!(
                least_fit(&with_free(n, &free), plain(n), k),
                result,
                "n {n}, k {k}"
            );
        }
    }

    /// The words of document 01: a fit for k is a start s with s + k ≤ n and blocks s to s + k - 1 all free; and those of
    /// document 02: it starts at or after from, has s + k at most before, and starts on a multiple of step. Figures past n
    /// are those of a card where row 15 holds.
    #[test]
    fn least_fit_is_the_first_of_all_fits() {
        const N: usize = 6;
        let some = || (0..=N as u32 + 1).chain([u32::MAX]);
        for map in all_maps(N) {
            for (from, before) in some().flat_map(|from| some().map(move |before| (from, before))) {
                for (step, k) in some().flat_map(|step| (1..=N + 1).map(move |k| (step, k))) {
                    let fits = |&s: &usize| {
                        let multiple = (0..=N).any(|times| times * step as usize == s);
                        let inside = s >= from as usize && s + k <= before as usize;
                        s + k <= N && all(&map, s, s + k, FREE) && inside && multiple
                    };
                    let first = (0..N).find(fits);
                    let figures = figures(from, before, step);
                    assert_eq!(
                        least_fit(&map, figures, k),
                        first,
                        "{map:?} {figures:?} {k}"
                    );
                }
            }
        }
    }

    /// In a row of 64-bit words: steps within a word, of a word and across words, and windows that start and end inside one.
    #[test]
    fn fits_of_figures() {
        let map = &with_free(200, &[3..=20, 60..=140, 150..=199]);
        let rows = [
            (figures(0, 200, 1), 5, Some(3)),
            (figures(0, 200, 2), 5, Some(4)),
            (figures(0, 200, 7), 5, Some(7)),
            (figures(8, 200, 7), 5, Some(14)),
            (figures(8, 18, 7), 5, None),
            (figures(8, 19, 7), 5, Some(14)),
            (figures(0, 200, 63), 5, Some(63)),
            (figures(0, 200, 64), 5, Some(64)),
            (figures(0, 200, 65), 5, Some(65)),
            (figures(0, 200, 64), 77, Some(64)),
            (figures(0, 200, 64), 78, None),
            (figures(0, 141, 60), 81, Some(60)),
            (figures(61, 200, 1), 81, None),
            (figures(0, 140, 1), 81, None),
            (figures(0, 200, 100), 40, Some(100)),
            (figures(0, 200, 4096), 1, None),
            (figures(0, 200, u32::MAX), 1, None),
            (figures(195, 200, 1), 5, Some(195)),
            (figures(196, 200, 1), 5, None),
        ];
        for (figures, k, result) in rows {
            assert_eq!(least_fit(map, figures, k), result, "{figures:?}, k {k}");
        }
    }

    /// Of all maps of 10 blocks and all starts: so many blocks are free from there on that the next is taken or is none.
    #[test]
    fn spaces() {
        for map in all_maps(10) {
            for start in 0..10 {
                let end = start + space(&map, start);
                assert!(all(&map, start, end, FREE), "{map:?} from {start}");
                assert!(end == 10 || map[end] == TAKEN, "{map:?} from {start}");
            }
        }
    }

    /// Spaces that end inside a word, at its end and behind it, in a later word and at n.
    #[test]
    fn spaces_over_words() {
        let map = &with_free(200, &[3..=20, 60..=63, 65..=140, 150..=199]);
        for (start, length) in [
            (3, 18),
            (20, 1),
            (60, 4),
            (63, 1),
            (65, 76),
            (128, 13),
            (150, 50),
            (199, 1),
            (64, 0),
        ] {
            assert_eq!(space(map, start), length, "from {start}");
        }
    }

    #[test]
    fn block_0_is_the_most_significant_bit() {
        let map = from_words(&[1 << 63, 1, 0]);
        let free: Vec<usize> = (0..192).filter(|&b| map[b]).collect();
        assert_eq!(free, [0, 127]);
        assert_eq!(to_words(&map), [1 << 63, 1, 0]);
        assert_eq!(to_words(&fresh(65, 2)), [u64::MAX, 1 << 63]);
    }

    /// Each free block counts, each that has no free one before it starts a run, and no run longer than the longest fits.
    #[test]
    fn counts_of_a_survey() {
        for map in all_maps(10) {
            let counts = survey(&map, 10);
            let starts = (0..10)
                .filter(|&b| map[b] && (b == 0 || !map[b - 1]))
                .count();
            let fitting = (1..11)
                .filter(|&k| least_fit(&map, plain(10), k).is_some())
                .count();
            let free = map.iter().filter(|&&block| block).count();
            assert_eq!(
                counts,
                Counts {
                    free,
                    runs: starts,
                    longest: fitting
                }
            );
        }
    }
}
