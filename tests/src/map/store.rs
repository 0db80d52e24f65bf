//! What the commands of a list do, and what is told of them.

use super::WORDS;
use crate::blocks::*;
use crate::call::{call, placed, Call, Kind};
use crate::calls::Caller;
use crate::card::{entry, Answer, Card};
use crate::random::{self, digest};

/// What the commands work on: the largest map, of which a card's map is the first words, the card's blocks, and the window of
/// searches; and who makes the calls.
pub(super) struct Store {
    caller: Caller,
    blocks: Vec<bool>,
    words: usize,
    pub(super) n: usize,
    from: usize,
    before: usize,
}

impl Store {
    pub(super) fn new(caller: Caller) -> Store {
        Store {
            caller,
            blocks: vec![TAKEN; 64 * WORDS],
            words: 0,
            n: 0,
            from: 0,
            before: 0,
        }
    }

    pub(super) fn map(&mut self) -> &mut [bool] {
        &mut self.blocks[..64 * self.words]
    }

    /// A command is done, and what is told behind it is handed back.
    pub(super) fn answer(&mut self, command: &str) -> String {
        let (letter, rest) = command.split_at(command.len().min(1));
        if letter == "=" {
            return String::new();
        }
        let mut numbers = rest
            .rsplit(['+', '-'])
            .filter(|number| !number.is_empty())
            .map(|number| number.parse().expect("a number"));
        let b: usize = numbers.next().unwrap_or(0);
        let a: usize = numbers.next().unwrap_or(0);
        match letter {
            "n" => (self.words, self.n, self.from, self.before) = (a.min(WORDS), b, 0, b),
            "b" => (self.from, self.before) = (a, b),
            "x" => self.every_other(0, a, b),
            "o" => self.every_other(1, a, b),
            "r" => self.fill(random::words(self.words, a, b as u64)),
            "q" => self.fill(random::runs(self.words, a + 1, b as u64)),
            "f" => mark(self.map(), a, a + b, FREE),
            "t" => mark(self.map(), a, a + b, TAKEN),
            "m" => return self.fresh(b),
            "s" => return self.search(b),
            "c" => return told(self.call(call(Kind::Survey, 0, 0)).0),
            "w" => return to_words(self.map()).get(b).map_or(String::new(), hex),
            "d" => return hex(&digest(&to_words(self.map()))),
            _ => panic!("no command: {command}"),
        }
        String::new()
    }

    fn fill(&mut self, map: Vec<bool>) {
        self.map().copy_from_slice(&map);
    }

    /// Every other word, from word `first` on, gets two halves: its first 32 blocks the bits of one, the others those of the
    /// other.
    fn every_other(&mut self, first: usize, high: usize, low: usize) {
        for (b, block) in self.map().iter_mut().enumerate() {
            if b / 64 % 2 == first {
                let half = if b % 64 < 32 { high } else { low };
                *block = half >> (31 - b % 32) & 1 == 1;
            }
        }
    }

    // The calls: on a card of one Absent sheet, whose free count is n, so that it contradicts none of them.

    /// What a call answers, and the map that it leaves. Only a call that takes blocks is lent the card's bytes.
    fn call(&mut self, call: Call) -> (Answer, Vec<bool>) {
        let takes = call.kind == Kind::ReservePlaced && self.n <= 64 * WORDS;
        let card = &mut Card {
            n: self.n,
            free: self.n,
            map: self.map().to_vec(),
            sheets: vec![entry(0x41, 0, 0)],
            bytes: vec![0; if takes { 512 * self.n } else { 0 }],
            summary: Vec::new(),
        };
        let answer = (self.caller)(card, call, &mut [], &mut []);
        (answer, std::mem::take(&mut card.map))
    }

    fn fresh(&mut self, n: usize) -> String {
        let (answer, map) = self.call(call(Kind::Fresh, 0, n as u32));
        self.fill(map);
        told(answer)
    }

    /// A search of the whole map; in a window that is a part of it, a placed reserve, which is not kept.
    fn search(&mut self, k: usize) -> String {
        let window = figures(self.from as u32, self.before as u32, 1);
        let whole = window == plain(self.n);
        told(
            self.call(match whole {
                true => call(Kind::Search, 0, k as u32),
                false => placed(0, k as u32, window),
            })
            .0,
        )
    }
}

fn hex(word: &u64) -> String {
    format!(":{word:016x}")
}

/// What is told of an answer: - where there is no fit, ! and the number of any other refusal.
fn told(answer: Answer) -> String {
    match answer {
        Answer::Done => String::new(),
        Answer::Start(start, space) => format!(":{start},{space}"),
        Answer::Counted(free, runs, longest) => format!(":{free},{runs},{longest}"),
        Answer::Refused(10) => "-".to_string(),
        Answer::Refused(number) => format!("!{number}"),
        other => panic!("no answer of these calls: {other:?}"),
    }
}
