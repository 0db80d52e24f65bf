//! A card as document 01 has it: one entry for each block of the map, one byte for each byte of the card, and for each call
//! the rows that hold for it, then the change.

use crate::blocks::*;
use crate::calendar::{day_of, days_of, term_of, within, FIRST_YEAR, LAST_YEAR};
use crate::call::{Call, Kind};
use crate::roles::may;
use crate::rows::Row;
use crate::summary::summary_numbers;

mod closing;
mod wings;
mod with_summary;

pub use wings::wing_of;

/// What a call answers.
#[derive(Clone, Copy, Debug, PartialEq)]
pub enum Answer {
    Done,
    /// A start, and the space behind it.
    Start(usize, usize),
    /// Of an offer: the start, and the length.
    Offered(usize, usize),
    Stands(Entry),
    Counted(usize, usize, usize),
    /// Whether the summary is the map's own.
    Own(bool),
    Blank(usize),
    Refused(u32),
}

use Answer::*;

/// A mark, a start and a length.
#[derive(Clone, Copy, Debug, PartialEq)]
pub struct Entry {
    pub mark: u32,
    pub start: u32,
    pub length: u32,
}

const ABSENT: Entry = entry(0x41, 0, 0);
const PAUSED: u32 = 0x50;
const OPEN: u32 = 0x4f;
const COMPLETE: u32 = 0x43;

pub const fn entry(mark: u32, start: u32, length: u32) -> Entry {
    Entry {
        mark,
        start,
        length,
    }
}

/// The shape, and what is lent.
#[derive(Clone, PartialEq)]
pub struct Card {
    pub n: usize,
    pub free: usize,
    /// 64 blocks for each word.
    pub map: Vec<bool>,
    /// One entry for each sheet.
    pub sheets: Vec<Entry>,
    pub bytes: Vec<u8>,
    /// The numbers of the summary, three for each group.
    pub summary: Vec<u32>,
}

const BLOCK: usize = 512;
const PAYLOAD: usize = 496;

/// The sums A and B of bytes.
pub(crate) fn sums(bytes: &[u8]) -> (u32, u32) {
    bytes.iter().fold((1, 0), |(a, b), &byte| {
        let a = (a + byte as u32) % 65521;
        (a, (b + a) % 65521)
    })
}

/// The sealed block of a sheet, a place and a payload.
pub fn sealed(sheet: u32, place: u32, payload: &[u8]) -> Vec<u8> {
    let mut block = [&sheet.to_be_bytes(), &place.to_be_bytes(), payload].concat();
    let (a, b) = sums(&block);
    block.extend(a.to_be_bytes());
    block.extend(b.to_be_bytes());
    block
}

/// A block is sound for a sheet and a place if it is the sealed block of its payload for them.
fn sound(block: &[u8], sheet: u32, place: u32) -> bool {
    block == sealed(sheet, place, &block[8..8 + PAYLOAD])
}

fn blank(block: &[u8]) -> bool {
    block.iter().all(|&byte| byte == 0)
}

/// What the rows of document 01's table ask of a card. Each is worked out from what is lent, whatever the rows before it say,
/// so that all that hold for a call can be told: where the entry is damaged, a standing is that of its mark, a length is the
/// one that it has, and blocks are those of them that the lent map or card has.
impl Card {
    /// The bytes of block b, if the card has it.
    fn block(&self, b: usize) -> Option<&[u8]> {
        self.bytes.get(BLOCK * b..BLOCK * (b + 1))
    }

    /// The entry of the call's sheet, if the catalogue has it.
    fn entry_of(&self, call: Call) -> Option<Entry> {
        self.sheets.get(call.sheet as usize).copied()
    }

    /// The first row that holds for a call.
    pub fn first(&self, call: Call) -> Option<Row> {
        let mut rows = call.kind.rows().iter().copied();
        rows.find(|row| self.holds(*row, call))
    }

    /// All rows that hold for a call, in their order.
    pub fn held(&self, call: Call) -> Vec<Row> {
        let rows = call.kind.rows().iter().copied();
        rows.filter(|row| self.holds(*row, call)).collect()
    }

    fn holds(&self, row: Row, call: Call) -> bool {
        let number = call.number as usize;
        // Fresh reads nothing of the shape that it takes.
        let n = if call.kind == Kind::Fresh {
            number
        } else {
            self.n
        };
        match row {
            Row::Role => !may(call.role, call.kind.name()),
            Row::Blocks => !(1..=262144).contains(&n),
            Row::Sheets => !(1..=1024).contains(&self.sheets.len()),
            Row::FreeAboveN => self.free > self.n,
            Row::MapLength => self.map.len() != 64 * words_of(n),
            Row::SummaryLength => self.summary.len() != summary_numbers(n),
            Row::CardLength => self.bytes.len() != BLOCK * self.n,
            Row::ScratchLength => number != scratch_words(self.n),
            Row::SavedState => !self.sound(),
            Row::NoSheet => self.entry_of(call).is_none(),
            Row::NoBlocks => number == 0,
            Row::SliceLength => call.bytes.length != PAYLOAD,
            Row::NoStep => call.figures.step == 0,
            Row::FromNotBefore => call.figures.from >= call.figures.before,
            Row::BeforeAboveN => call.figures.before as usize > n,
            Row::OverLimit => self.entry_of(call).is_some() && self.over_limit(call),
            Row::NoYear => !(FIRST_YEAR..=LAST_YEAR).contains(&call.date.year),
            Row::NoMonth => days_of(call.date.year, call.date.month).is_none(),
            Row::NoDay => {
                let days = days_of(call.date.year, call.date.month);
                !(1..=days.unwrap_or(31)).contains(&call.date.day)
            }
            Row::NoFit => number > 0 && self.found(call).is_none(),
            Row::RunNotFree => number > 0 && !self.run_is_free(call.start as usize, number),
            Row::FreeCount if call.kind.without_summary() != Kind::Release => number > self.free,
            _ => match self.entry_of(call) {
                Some(entry) => self.holds_for_entry(row, call, entry),
                None => false,
            },
        }
    }

    fn holds_for_entry(&self, row: Row, call: Call, entry: Entry) -> bool {
        let (number, length) = (call.number as usize, entry.length as usize);
        match row {
            Row::Damaged => self.damaged(entry),
            Row::Absent => entry.mark == ABSENT.mark,
            Row::Paused => entry.mark == PAUSED,
            Row::PausedEmpty => entry.mark == PAUSED && length == 0,
            Row::Open => entry.mark == OPEN,
            Row::Complete => entry.mark == COMPLETE,
            Row::NoPlace => number >= length,
            Row::UnsoundFirst => self.unsound_at(call, entry, 0),
            Row::OutsideTerm => self.outside_term(call, entry),
            Row::Unsound if call.kind != Kind::Complete => self.unsound_at(call, entry, number),
            Row::Unsound => self
                .places(entry)
                .any(|place| !self.blank_at(entry, place) && self.unsound_at(call, entry, place)),
            Row::Blank => self.lowest_blank(entry).is_some(),
            Row::NotNext => number > 0 && !self.next_are_free(entry, number),
            Row::FreeCount => self.free + length > self.n,
            other => unreachable!("{other:?} is no row of a call on a sheet"),
        }
    }

    /// An entry breaks its mark's rule, or a block of its extent is free in the map. A Paused one is 0 and 0, or has an extent
    /// under Complete's rule (document 02, (g)).
    pub(crate) fn damaged(&self, e: Entry) -> bool {
        let (start, end) = (e.start as usize, e.start as usize + e.length as usize);
        let last = self.map.len();
        match e.mark {
            0x41 => end != 0,
            0x50 if end == 0 => false,
            0x50 | 0x4f | 0x43 => {
                let inside = e.length >= 1 && end <= self.n;
                !inside || self.map[start.min(last)..end.min(last)].contains(&FREE)
            }
            _ => true,
        }
    }

    /// The least fit for a search, a reserve or an offer: that of a plain reserve is the one with the figures 0, n and 1.
    fn least_fit(&self, call: Call) -> Option<usize> {
        let blocks = self.n.min(self.map.len());
        let figures = self.figures_of(call);
        least_fit(&self.map[..blocks], figures, call.number as usize)
    }

    fn figures_of(&self, call: Call) -> Figures {
        match call.kind.without_summary() {
            Kind::ReservePlaced => call.figures,
            _ => plain(self.n),
        }
    }

    /// A start, and the space behind it: up to the next taken block or n, whatever `before` is.
    fn with_space(&self, start: usize) -> Answer {
        Start(start, space(&self.map[..self.n], start))
    }

    /// The k blocks from a start on are all free and inside n.
    fn run_is_free(&self, start: usize, k: usize) -> bool {
        let run = self.map.get(start..start + k);
        start + k <= self.n && run.is_some_and(|blocks| !blocks.contains(&TAKEN))
    }

    /// The m blocks after the extent are all free and inside n.
    fn next_are_free(&self, e: Entry, m: usize) -> bool {
        self.run_is_free(e.start as usize + e.length as usize, m)
    }

    /// The places of an entry whose blocks the card has.
    fn places(&self, e: Entry) -> std::ops::Range<usize> {
        let blocks = self.bytes.len() / BLOCK;
        0..(e.length as usize).min(blocks.saturating_sub(e.start as usize))
    }

    fn blank_at(&self, e: Entry, place: usize) -> bool {
        self.block(e.start as usize + place).is_some_and(blank)
    }

    fn unsound_at(&self, call: Call, e: Entry, place: usize) -> bool {
        let block = self.block(e.start as usize + place);
        block.is_some_and(|block| !sound(block, call.sheet, place as u32))
    }

    /// The first and the last day that place 0 of an entry starts with, if the card has its block.
    pub fn term(&self, e: Entry) -> Option<(u32, u32)> {
        let block = self.block(e.start as usize)?;
        Some(term_of(&block[8..8 + PAYLOAD]))
    }

    /// The call's date exists, and lies outside the term.
    fn outside_term(&self, call: Call, e: Entry) -> bool {
        match (self.term(e), day_of(call.date)) {
            (Some(term), Some(day)) => !within(term, day),
            _ => false,
        }
    }

    pub fn lowest_blank(&self, e: Entry) -> Option<usize> {
        self.places(e).find(|place| self.blank_at(e, *place))
    }
}

/// The calls.
impl Card {
    /// What a call answers, and what it leaves in the card and in its payload or buffer: it is refused with the first row that
    /// holds, and then changes nothing. With 9 goes the lowest blank place (document 02 (d)).
    pub fn call(&mut self, call: Call, slice: &mut [u8]) -> Answer {
        match self.first(call) {
            None if call.kind.has_summary() => self.accepted_with_summary(call, slice),
            None => self.accepted(call, slice),
            Some(Row::Blank) => {
                let entry = self.sheets[call.sheet as usize];
                Blank(self.lowest_blank(entry).unwrap())
            }
            Some(row) => Refused(row.number()),
        }
    }

    /// A call for which no row holds. What it does to a summary is with_summary.rs.
    fn accepted(&mut self, call: Call, slice: &mut [u8]) -> Answer {
        let (sheet, number) = (call.sheet as usize, call.number as usize);
        match call.kind.without_summary() {
            Kind::Fresh => self.fresh(number),
            Kind::Search => self.with_space(self.found(call).unwrap()),
            Kind::Survey => {
                let counts = survey(&self.map, self.n);
                Counted(counts.free, counts.runs, counts.longest)
            }
            Kind::Reserve | Kind::ReservePlaced => {
                self.reserve(sheet, self.found(call).unwrap(), number)
            }
            Kind::Offer => Offered(self.found(call).unwrap(), number),
            Kind::Accept => self.reserve(sheet, call.start as usize, number),
            Kind::Grow => {
                let Entry { start, length, .. } = self.sheets[sheet];
                self.take(sheet, start as usize, (start + length) as usize, number);
                Done
            }
            Kind::Put => self.put(sheet, number, slice),
            Kind::Complete => self.mark(sheet, COMPLETE),
            Kind::Pause => self.mark(sheet, PAUSED),
            Kind::Resume => self.mark(sheet, COMPLETE),
            Kind::Release => self.release(sheet),
            Kind::Close => self.close(),
            Kind::Show | Kind::ShowDated => {
                let block = self.block(self.sheets[sheet].start as usize + number);
                slice.copy_from_slice(&block.unwrap()[8..8 + PAYLOAD]);
                Done
            }
            Kind::Standing => Stands(self.sheets[sheet]),
            Kind::SummaryBuild => Done,
            Kind::SummaryCheck => Own(self.has_own_summary()),
            form => unreachable!("{form:?} is done as the call without the summary"),
        }
    }

    fn fresh(&mut self, n: usize) -> Answer {
        self.map = fresh(n, words_of(n));
        self.sheets.fill(ABSENT);
        (self.n, self.free) = (n, n);
        Done
    }

    /// What a reserve at a start does and answers, the space being measured before the marking.
    fn reserve(&mut self, sheet: usize, start: usize, k: usize) -> Answer {
        let answer = self.with_space(start);
        self.take(sheet, start, start, k);
        answer
    }

    /// A sheet is open from `start` on, and k blocks from `from` on are its last ones: taken, and filled with zeros.
    fn take(&mut self, sheet: usize, start: usize, from: usize, k: usize) {
        mark(&mut self.map, from, from + k, TAKEN);
        self.bytes[BLOCK * from..BLOCK * (from + k)].fill(0);
        self.free -= k;
        self.sheets[sheet] = entry(OPEN, start as u32, (from + k - start) as u32);
    }

    fn put(&mut self, sheet: usize, place: usize, payload: &[u8]) -> Answer {
        let at = BLOCK * (self.sheets[sheet].start as usize + place);
        let block = sealed(sheet as u32, place as u32, payload);
        self.bytes[at..at + BLOCK].copy_from_slice(&block);
        Done
    }

    /// A sheet gets another mark. Its start and its length stay.
    fn mark(&mut self, sheet: usize, mark: u32) -> Answer {
        self.sheets[sheet].mark = mark;
        Done
    }

    fn release(&mut self, sheet: usize) -> Answer {
        let Entry { start, length, .. } = self.sheets[sheet];
        let (start, length) = (start as usize, length as usize);
        mark(&mut self.map, start, start + length, FREE);
        self.free += length;
        self.sheets[sheet] = ABSENT;
        Done
    }
}

#[cfg(test)]
mod closing_tests;
#[cfg(test)]
mod dated_tests;
#[cfg(test)]
mod paused_tests;
#[cfg(test)]
mod placed_tests;
#[cfg(test)]
mod role_tests;
#[cfg(test)]
mod summary_tests;
#[cfg(test)]
mod wing_tests;

#[cfg(test)]
mod tests;
