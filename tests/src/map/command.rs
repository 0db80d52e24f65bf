//! Commands of a list, written down.

use crate::blocks::words_of;

/// A card of n blocks, whose map has as many words as they take.
pub(super) fn card(n: usize) -> String {
    format!("n{}+{n}", words_of(n))
}

/// All blocks taken.
pub(super) const NO_FREE: &str = "x0 o0";

/// The two halves of a word.
fn halves(word: u64) -> String {
    format!("{}+{}", word >> 32, word as u32)
}

/// Two words by turns.
pub(super) fn by_turns(even: u64, odd: u64) -> String {
    format!("x{} o{}", halves(even), halves(odd))
}

/// The blocks from start to end - 1, to become free or taken.
pub(super) fn run(letter: char, start: usize, end: usize) -> String {
    format!("{letter}{start}+{}", end - start)
}

pub(super) fn searches(lengths: &[usize]) -> String {
    let commands: Vec<String> = lengths.iter().map(|k| format!("s{k}")).collect();
    commands.join(" ")
}

/// The searches for k blocks, for one less and for one more. There is none for 0.
pub(super) fn around(k: usize) -> String {
    searches(&(k.max(2) - 1..=k + 1).collect::<Vec<usize>>())
}

/// The words of a map.
pub(super) fn all_words(w: usize) -> String {
    let commands: Vec<String> = (0..w).map(|i| format!("w{i}")).collect();
    commands.join(" ")
}

/// Words that held something before.
pub(super) fn held() -> String {
    by_turns(0x0123456789abcdef, 0xfedcba9876543210)
}
