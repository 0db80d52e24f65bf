//! How often each call was answered with each row of document 01's table, and how often two rows held for it at once.

use bitwise::call::{orders, CALLS};
use bitwise::card::Answer;
use bitwise::rows::{pairs, Pair, Row};
use std::collections::BTreeMap;

/// The columns of the table of answers, in the order of the rows. Row 4 is there five times.
const COLUMNS: [&str; 22] = [
    "done", "21", "1", "2", "4 entry", "5", "6", "7", "8", "3", "15", "18", "19", "4 first", "20",
    "4 block", "9", "10", "11", "17", "4 count", "4 state",
];

/// The column that a row is counted in.
fn column(row: Option<Row>) -> String {
    match row {
        None => "done".to_string(),
        Some(Row::Damaged) => "4 entry".to_string(),
        Some(Row::UnsoundFirst) => "4 first".to_string(),
        Some(Row::Unsound) => "4 block".to_string(),
        Some(Row::FreeCount) => "4 count".to_string(),
        Some(Row::SavedState) => "4 state".to_string(),
        Some(row) => row.number().to_string(),
    }
}

#[derive(Default)]
pub struct Counts {
    pub calls: u64,
    /// By the name of the call and the first row that held.
    answers: BTreeMap<(&'static str, Option<Row>), u64>,
    /// By the name of the call, the first row that held, and another that did.
    pairs: BTreeMap<(&'static str, Row, Row), u64>,
    /// Saves and loads, by what was tried and the answer.
    images: BTreeMap<(&'static str, String), u64>,
    /// Placed reserves, accepts and calls with a summary, by what they are examples of.
    kinds: BTreeMap<String, u64>,
}

impl Counts {
    /// A call that was made, with the rows that held for it, the first of which was the answer.
    pub fn note(&mut self, name: &'static str, held: &[Row]) {
        let first = held.first().copied();
        *self.answers.entry((name, first)).or_default() += 1;
        for other in held.iter().skip(1) {
            *self.pairs.entry((name, held[0], *other)).or_default() += 1;
        }
        self.calls += 1;
    }

    /// How often a call was answered with a row of a column.
    fn answered(&self, name: &str, in_column: &str) -> u64 {
        let counts = self.answers.iter();
        counts
            .filter(|((other, row), _)| *other == name && column(*row) == in_column)
            .map(|(_, count)| count)
            .sum()
    }

    /// A line for each call. A row that could have been the answer and never was is an error, for then the calls have not
    /// tested it. Rows 1 and 4 hold in damaged states only.
    pub fn report(&self, damaged: bool) -> Result<(), String> {
        print!("  {:<15}", "");
        COLUMNS.iter().for_each(|column| print!(" {column:>7}"));
        println!();
        let mut missing = Vec::new();
        for (_, name, rows) in CALLS {
            print!("  {name:<15}");
            for in_column in COLUMNS {
                let only_damaged = in_column == "1" || in_column.starts_with('4');
                let possible = rows.iter().any(|row| column(Some(*row)) == in_column);
                let can_be = in_column == "done" || possible && (damaged || !only_damaged);
                match self.answered(name, in_column) {
                    0 if can_be => missing.push(format!("{name} {in_column}")),
                    0 => print!(" {:>7}", "-"),
                    count => print!(" {count:>7}"),
                }
            }
            println!();
        }
        if missing.is_empty() {
            return Ok(());
        }
        Err(format!("never answered: {}", missing.join(", ")))
    }

    pub fn note_image(&mut self, tried: &'static str, answer: Answer) {
        let answer = match answer {
            Answer::Refused(number) => number.to_string(),
            _ => "done".to_string(),
        };
        *self.images.entry((tried, answer)).or_default() += 1;
    }

    /// A line for each thing tried and each answer to it. One that should have been tried and never was is an error.
    pub fn report_images(&self) -> Result<(), String> {
        for ((tried, answer), count) in &self.images {
            println!("  {tried:<44} {answer:>4} {count:>7}");
        }
        let tried = |name: &&str| self.images.keys().any(|(other, _)| other == name);
        let missing: Vec<&str> = crate::flaws::expected()
            .filter(|name| !tried(name))
            .collect();
        if missing.is_empty() {
            return Ok(());
        }
        Err(format!("never tried: {}", missing.join(", ")))
    }

    pub fn note_kind(&mut self, kind: &str) {
        *self.kinds.entry(kind.to_string()).or_default() += 1;
    }

    /// So many more of a kind.
    pub fn add_kind(&mut self, kind: &str, count: u64) {
        *self.kinds.entry(kind.to_string()).or_default() += count;
    }

    /// The line of a kind of call.
    pub fn print_kind(&self, kind: &str) {
        let made = self.kinds.get(kind).copied().unwrap_or(0);
        println!("  {kind:<64} {made:>7}");
    }

    /// A line for each kind of call. One that should have been made and never was is an error.
    pub fn report_kinds(&self, expected: impl Iterator<Item = String>) -> Result<(), String> {
        let expected: Vec<String> = expected.collect();
        let made = |kind: &String| self.kinds.get(kind).copied().unwrap_or(0);
        for kind in &expected {
            self.print_kind(kind);
        }
        let missing: Vec<String> = expected
            .into_iter()
            .filter(|kind| made(kind) == 0)
            .collect();
        if missing.is_empty() {
            return Ok(());
        }
        Err(format!("never made: {}", missing.join(", ")))
    }
}

/// A row as it is printed: its number, and what it is about.
fn printed(row: Row) -> String {
    format!("{} {row:?}", row.number())
}

/// The pairs of rows that held at once.
impl Counts {
    pub fn add_pairs(&mut self, other: &Counts) {
        for (pair, count) in &other.pairs {
            *self.pairs.entry(*pair).or_default() += count;
        }
    }

    fn seen(&self, name: &'static str, (first, other): Pair) -> u64 {
        let count = self.pairs.get(&(name, first, other));
        count.copied().unwrap_or(0)
    }

    /// A line for each call: how many pairs can hold at once, how often they did, and the one that did least often. A pair
    /// that can hold and never did is an error, and so is one that did and was thought not to.
    pub fn report_pairs(&self) -> Result<(), String> {
        println!("  two rows at once: pairs     seen  least often");
        let mut wrong = Vec::new();
        for (name, order) in orders() {
            let possible = pairs(name, order);
            let total: u64 = possible.iter().map(|pair| self.seen(name, *pair)).sum();
            let least = possible.iter().min_by_key(|pair| self.seen(name, **pair));
            let least = least.map_or(String::new(), |pair| {
                let count = self.seen(name, *pair);
                format!("{} before {}: {count}", printed(pair.0), printed(pair.1))
            });
            println!("  {name:<17} {:>5} {total:>8}  {least}", possible.len());
            wrong.extend(self.wrong_pairs(name, &possible));
        }
        if wrong.is_empty() {
            return Ok(());
        }
        Err(wrong.join("\n    "))
    }

    /// What is to be said of the pairs of a call that should have been met and were not, or the other way round.
    fn wrong_pairs(&self, name: &'static str, possible: &[Pair]) -> Vec<String> {
        let never = possible.iter().filter(|pair| self.seen(name, **pair) == 0);
        let never = never.map(|(first, other)| {
            let (first, other) = (printed(*first), printed(*other));
            format!("{name}: {first} never held at once with {other}")
        });
        let met = self.pairs.keys().filter(|(other, ..)| *other == name);
        let apart = met.filter(|(_, first, other)| !possible.contains(&(*first, *other)));
        let apart = apart.map(|(_, first, other)| {
            let (first, other) = (printed(*first), printed(*other));
            format!("{name}: {first} held at once with {other}, and rows.rs has them apart")
        });
        never.chain(apart).collect()
    }
}
