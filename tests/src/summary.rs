//! A summary beside the map (document 02, (j)): for each group of words the free run at its head, at its tail and its longest,
//! told from the runs of free blocks. Nothing is built from halves here; that a group is what its two halves give is tested
//! below.

use crate::blocks::{words_of, FREE};
use std::ops::Range;

/// p, the least power of two not below the number of words.
fn power(w: usize) -> usize {
    let mut p = 1;
    while p < w {
        p *= 2;
    }
    p
}

/// How many numbers the summary of a card of n blocks has: three for each of 2p - 1 groups.
pub fn summary_numbers(n: usize) -> usize {
    3 * (2 * power(words_of(n)) - 1)
}

/// The words of group g, of p words in all: group 0 is all words, groups 2g + 1 and 2g + 2 are the first and the second half of
/// group g.
fn words_in(g: usize, p: usize) -> Range<usize> {
    if g == 0 {
        return 0..p;
    }
    let above = words_in((g - 1) / 2, p);
    let middle = (above.start + above.end) / 2;
    if g % 2 == 1 {
        above.start..middle
    } else {
        middle..above.end
    }
}

/// The blocks of each group of a card of n blocks, in the order of the groups. Those of missing words are among them.
fn groups(n: usize) -> impl Iterator<Item = Range<usize>> {
    let p = power(words_of(n));
    (0..2 * p - 1).map(move |g| {
        let words = words_in(g, p);
        64 * words.start..64 * words.end
    })
}

/// The runs of free blocks of a map below n, each as long as it can be. All other blocks are taken: those from n on, whatever
/// their bits say, and those of missing words.
fn free_runs(map: &[bool], n: usize) -> Vec<Range<usize>> {
    let mut runs: Vec<Range<usize>> = Vec::new();
    for b in (0..n.min(map.len())).filter(|&b| map[b] == FREE) {
        match runs.last_mut() {
            Some(run) if run.end == b => run.end = b + 1,
            _ => runs.push(b..b + 1),
        }
    }
    runs
}

/// The three numbers of a group, in the order head, tail, longest: of each run the part that lies in the group counts.
fn numbers_in(runs: &[Range<usize>], group: Range<usize>) -> [u32; 3] {
    let passed = runs.partition_point(|run| run.end <= group.start);
    let (mut head, mut tail, mut longest) = (0, 0, 0);
    for run in runs[passed..]
        .iter()
        .take_while(|run| run.start < group.end)
    {
        let (start, end) = (run.start.max(group.start), run.end.min(group.end));
        if start == group.start {
            head = end - start;
        }
        if end == group.end {
            tail = end - start;
        }
        longest = longest.max(end - start);
    }
    [head, tail, longest].map(|number| number as u32)
}

/// The summary of a map of n blocks.
pub fn build(map: &[bool], n: usize) -> Vec<u32> {
    let runs = free_runs(map, n);
    groups(n)
        .flat_map(|group| numbers_in(&runs, group))
        .collect()
}

/// Whether a summary is the own one of a map of n blocks.
pub fn own(map: &[bool], n: usize, summary: &[u32]) -> bool {
    summary.len() == summary_numbers(n) && summary == build(map, n)
}

/// The blocks of a group that the map has.
fn part<'a>(map: &'a [bool], group: &Range<usize>) -> &'a [bool] {
    let last = map.len();
    &map[group.start.min(last)..group.end.min(last)]
}

/// The numbers of the groups above changed words, by their places in the summary: of the groups whose blocks differ in the maps
/// of n blocks before and after.
pub fn above_changed(before: &[bool], after: &[bool], n: usize) -> Vec<usize> {
    let groups = groups(n).enumerate();
    let above = groups.filter(|(_, group)| part(before, group) != part(after, group));
    above.flat_map(|(g, _)| 3 * g..3 * g + 3).collect()
}

#[cfg(test)]
mod tests;
