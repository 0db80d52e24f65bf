//! Random maps, with commands whose numbers are chosen by what the commands before them have done.

use super::command::*;
use super::full_maps::LIMIT;
use super::store::Store;
use super::WORDS;
use crate::blocks::survey;
use crate::calls::by_card;
use crate::random::Random;

/// A list with what its commands have done.
struct Done {
    list: String,
    store: Store,
}

impl Done {
    fn add(&mut self, command: String) {
        self.store.answer(&command);
        self.list += &command;
        self.list += " ";
    }

    fn end_line(&mut self) {
        self.list.pop();
        self.list += "\n";
    }
}

pub(super) fn random_maps() -> String {
    let seed = 0x9e3779b97f4a7c15;
    let random = &mut Random(seed);
    let mut done = Done {
        list: format!("=random-maps,-seed-{seed:x}=\n"),
        store: Store::new(by_card),
    };
    for _ in 0..2500 {
        random_map(&mut done, random);
    }
    for kind in 0..8 {
        random_full_map(&mut done, kind, random);
    }
    done.list
}

/// The words of a map, of a kind from 0 to 7: runs of 1 to 16 or of 1 to 128 blocks where it is 6 or 7.
fn random_words(kind: u64, random: &mut Random) -> String {
    let kind = match kind {
        6 => "q15".to_string(),
        7 => "q127".to_string(),
        _ => format!("r{kind}"),
    };
    format!("{kind}+{}", random.within(0, 100000))
}

/// A search for 1 to `most` blocks.
fn random_search(most: usize, random: &mut Random) -> String {
    format!("s{}", random.within(1, most + 1))
}

/// A window of the first n blocks.
fn random_window(n: usize, random: &mut Random) -> String {
    let from = random.within(0, n);
    format!("b{from}-{}", random.within(from, n) + 1)
}

/// One of two letters with blocks from start to end - 1.
fn random_run(letters: [char; 2], start: usize, end: usize, random: &mut Random) -> String {
    run(random.one(&letters), start, end)
}

/// A mark of any blocks of the card.
fn random_mark(n: usize, random: &mut Random) -> String {
    let start = random.within(0, n);
    let end = random.within(start, n) + 1;
    random_run(['f', 't'], start, end, random)
}

/// Searches in the window, for short runs and for long ones.
fn random_searches(done: &mut Done, random: &mut Random) {
    for most in [4, 16, 80] {
        done.add(random_search(most, random));
    }
}

/// The counts of a map, and the searches around its longest run.
fn summary(done: &mut Done) {
    let n = done.store.n;
    let longest = survey(done.store.map(), n).longest;
    for command in format!("c {}", around(longest)).split(' ') {
        done.add(command.to_string());
    }
}

/// A map of 1 to 6 words whose n ends anywhere in the last.
fn random_map(done: &mut Done, random: &mut Random) {
    let x = random.draw();
    let n = 64 * (x % 6) as usize + 1 + (x / 6 % 64) as usize;
    done.add(card(n));
    done.add(random_words(x / 384 % 8, random));
    random_searches(done, random);
    done.add(random_mark(n, random));
    done.add(random_mark(n, random));
    summary(done);
    done.add(random_window(n, random));
    done.add(random_search(12, random));
    done.end_line();
}

/// A map of 4,096 words of one kind.
fn random_full_map(done: &mut Done, kind: u64, random: &mut Random) {
    done.add(card(LIMIT));
    done.add(random_words(kind, random));
    random_searches(done, random);
    done.add("b100001-262001".to_string());
    done.add(random_search(200, random));
    done.add(format!("n{WORDS}+262100"));
    summary(done);
    done.end_line();
}
