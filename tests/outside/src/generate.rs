//! Random calls: mostly those that a dispenser makes of the sheet at hand, as its entry stands, and some with any numbers.

use crate::closing::close_of;
use crate::dates::{any_date, date_within, some_date, some_term};
use crate::figures::{admitting, any_figures, some_start};
use crate::offers::accept_of;
use crate::roles::some_role;
use crate::shares::{some_limits, some_sheet};
use bitwise::blocks::{scratch_words, survey, FREE};
use bitwise::call::{accept, call, dated, placed, Bytes, Call, Kind, Limits, CALLS, PAYLOAD};
use bitwise::card::{Card, Entry};
use bitwise::random::Random;
use bitwise::roles::admitted;
use bitwise::rows::Row;

pub struct Generator {
    pub random: Random,
    /// The sheet that the dispenser is busy with.
    sheet: u32,
    /// The accepts of the last offers.
    offers: Vec<Call>,
    /// Those of every call, if they do not change.
    pub limits: Option<Limits>,
}

impl Generator {
    pub fn new(random: Random) -> Generator {
        Generator {
            random,
            sheet: 0,
            offers: Vec::new(),
            limits: None,
        }
    }

    pub fn call(&mut self, card: &Card) -> Call {
        let call = if self.random.chance(1, 5) || card.sheets.is_empty() {
            self.any_call(card)
        } else {
            self.likely_call(card)
        };
        let call = call.with_limits(match self.limits {
            Some(limits) => limits,
            None => some_limits(card, call, &mut self.random),
        });
        let call = call.by(self.role(call.kind));
        if let Some(accept) = accept_of(card, call) {
            self.offers.truncate(3);
            self.offers.insert(0, accept);
        }
        call
    }

    /// Who makes a call.
    pub fn role(&mut self, kind: Kind) -> u32 {
        some_role(kind, &mut self.random)
    }

    /// A call that the sheet at hand admits, more often than not.
    fn likely_call(&mut self, card: &Card) -> Call {
        let c = card.sheets.len();
        if !self.offers.is_empty() && self.random.chance(1, 12) {
            let at = self.random.within(0, self.offers.len());
            return self.accept_offer(at);
        }
        if self.random.chance(1, if is_large(card) { 400 } else { 60 }) {
            return close_of(card);
        }
        if self.sheet as usize >= c || self.random.chance(1, 6) {
            self.sheet = some_sheet(c, &mut self.random);
        }
        let sheet = self.sheet;
        let entry = card.sheets[sheet as usize];
        match entry.mark {
            0x41 if self.random.chance(1, 10) => call(Kind::Pause, sheet, 0),
            0x41 => self.of_absent(card, sheet),
            0x50 => self.of_paused(card, sheet, entry),
            0x4f => self.of_open(card, sheet, entry),
            0x43 if self.random.chance(1, 4) => call(Kind::Release, sheet, 0),
            0x43 if self.random.chance(1, 5) => call(Kind::Pause, sheet, 0),
            0x43 => self.show(card, sheet, entry),
            _ => call(Kind::Standing, sheet, 0),
        }
    }

    /// A show, with a date or without, of one of the places.
    fn show(&mut self, card: &Card, sheet: u32, entry: Entry) -> Call {
        let place = self.likely_place(entry);
        let show = match self.random.within(0, 2) {
            0 => call(Kind::Show, sheet, place),
            _ => dated(sheet, place, some_date(card.term(entry), &mut self.random)),
        };
        show.with_bytes(self.bytes())
    }

    /// Mostly a course that is paused is taken up again, and a pause without blocks is released.
    fn of_paused(&mut self, card: &Card, sheet: u32, entry: Entry) -> Call {
        let of_course = [Kind::Resume, Kind::Resume, Kind::Resume, Kind::Release];
        let without_blocks = [Kind::Release, Kind::Release, Kind::Release, Kind::Resume];
        match self.random.within(0, 8) {
            0 => call(Kind::Standing, sheet, 0),
            1 => self.show(card, sheet, entry),
            2 => call(Kind::Pause, sheet, 0),
            _ if entry.length > 0 => call(self.random.one(&of_course), sheet, 0),
            _ => call(self.random.one(&without_blocks), sheet, 0),
        }
    }

    /// A reserve, or an accept of what was offered. If there are not so many blocks, another sheet gives way first, more often
    /// than not.
    fn of_absent(&mut self, card: &Card, sheet: u32) -> Call {
        let mut offers = self.offers.iter();
        let offered = offers.position(|accept| accept.sheet == sheet);
        if let Some(at) = offered.filter(|_| self.random.chance(1, 2)) {
            return self.accept_offer(at);
        }
        let count = self.likely_count(card);
        if count as usize > card.free && self.random.chance(7, 8) {
            let from = self.random.within(0, card.sheets.len());
            let sheets = (from..card.sheets.len()).chain(0..from);
            let mut holders = sheets.filter(|&other| card.sheets[other].length > 0);
            if let Some(holder) = holders.next() {
                return call(Kind::Release, holder as u32, 0);
            }
        }
        self.reserve(card, sheet, count)
    }

    /// The accept of one of the last offers, which is not made again, more often than not.
    fn accept_offer(&mut self, at: usize) -> Call {
        let accept = self.offers[at];
        if self.random.chance(3, 4) {
            self.offers.remove(at);
        }
        accept
    }

    /// A reserve of any kind, or an offer, after which the dispenser may turn to another sheet first.
    fn reserve(&mut self, card: &Card, sheet: u32, count: u32) -> Call {
        match self.random.within(0, 8) {
            0..=2 => call(Kind::Reserve, sheet, count),
            3..=5 => placed(sheet, count, any_figures(card.n, count, &mut self.random)),
            6 => accept(sheet, self.free_block(card), count),
            _ => {
                self.sheet = some_sheet(card.sheets.len(), &mut self.random);
                call(Kind::Offer, sheet, count)
            }
        }
    }

    fn of_open(&mut self, card: &Card, sheet: u32, entry: Entry) -> Call {
        let blank = blank_place(card, entry);
        match self.random.within(0, 32) {
            0..=1 => call(Kind::Grow, sheet, self.likely_count(card)),
            2 => call(Kind::Release, sheet, 0),
            3 => call(Kind::Complete, sheet, 0),
            4 => {
                let place = self.likely_place(entry);
                self.put(sheet, place)
            }
            _ => match blank {
                Some(place) => self.put(sheet, place),
                None => call(Kind::Complete, sheet, 0),
            },
        }
    }

    /// A put. The payload of place 0 starts with the days of a term, more often than not.
    fn put(&mut self, sheet: u32, place: u32) -> Call {
        let mut bytes = self.bytes();
        if place == 0 && self.random.chance(7, 8) {
            bytes.term = Some(some_term(&mut self.random));
        }
        call(Kind::Put, sheet, place).with_bytes(bytes)
    }

    /// Any of the calls that are lent no summary, but for fresh, with any numbers.
    fn any_call(&mut self, card: &Card) -> Call {
        let kinds = CALLS[1..].iter().map(|(kind, ..)| *kind);
        let kinds = kinds.filter(|kind| !kind.has_summary());
        let kinds: Vec<Kind> = kinds
            .filter(|kind| !kind.has_scratch() || !is_large(card))
            .collect();
        let kind = self.random.one(&kinds);
        let sheet = if kind.has_sheet() {
            self.any_sheet(card)
        } else {
            0
        };
        let number = if kind.rows().contains(&Row::NoPlace) {
            self.any_place(card, sheet)
        } else if kind.has_scratch() {
            scratch_words(card.n) as u32
        } else if kind.has_number() {
            self.any_count(card)
        } else {
            0
        };
        if kind == Kind::ReservePlaced {
            return placed(sheet, number, any_figures(card.n, number, &mut self.random));
        }
        if kind == Kind::Accept {
            return accept(sheet, self.any_start(card, number), number);
        }
        let bytes = if kind.has_slice() {
            self.bytes()
        } else {
            PAYLOAD
        };
        let call = match kind {
            Kind::ShowDated => dated(sheet, number, any_date(&mut self.random)),
            _ => call(kind, sheet, number),
        };
        call.with_bytes(bytes)
    }

    // Numbers.

    /// A number of blocks that has a fair chance of a fit: mostly a few, or a share of the card.
    fn likely_count(&mut self, card: &Card) -> u32 {
        let share = 2 * card.n / card.sheets.len() + 1;
        match self.random.within(0, 8) {
            0..=4 => self.random.within(1, 5) as u32,
            5..=6 => self.random.within(1, share + 1) as u32,
            _ => self.any_count(card),
        }
    }

    /// A number of blocks: around the longest run, around n, or anything.
    fn any_count(&mut self, card: &Card) -> u32 {
        let longest = survey(&card.map, card.n.min(card.map.len())).longest as u32;
        let n = card.n as u32;
        match self.random.within(0, 8) {
            0 => 0,
            1 => self.random.within(1, 4) as u32,
            2 => longest,
            3 => longest + 1,
            4 => self.random.within(0, longest as usize + 2) as u32,
            5 => self.around(n),
            6 => self.around(card.free as u32),
            _ => self
                .random
                .one(&[1, 64, 65, 262144, 262145, u32::MAX - 1, u32::MAX]),
        }
    }

    /// The first free block from any block on, or any block if none of those is free.
    fn free_block(&mut self, card: &Card) -> u32 {
        let n = card.n.clamp(1, 262145);
        let block = self.random.within(0, n);
        let mut blocks = block..n.min(card.map.len());
        blocks.find(|&b| card.map[b] == FREE).unwrap_or(block) as u32
    }

    /// Where a run of some blocks starts: so that it ends around n or around 2^32, or anywhere.
    fn any_start(&mut self, card: &Card, count: u32) -> u32 {
        match self.random.within(0, 8) {
            0 => self.around(card.n as u32),
            1 => self.around((card.n as u32).wrapping_sub(count)),
            2 => self.around(0u32.wrapping_sub(count)),
            3 => self.random.one(&[0, 1, 1 << 31, u32::MAX - 1, u32::MAX]),
            _ => self.free_block(card),
        }
    }

    pub fn around(&mut self, number: u32) -> u32 {
        self.random
            .one(&[number.wrapping_sub(1), number, number.wrapping_add(1)])
    }

    pub fn any_sheet(&mut self, card: &Card) -> u32 {
        let c = card.sheets.len();
        if c == 0 || self.random.chance(1, 12) {
            self.random
                .one(&[c as u32, c as u32 + 1, 1023, 1024, u32::MAX])
        } else {
            some_sheet(c, &mut self.random)
        }
    }

    fn likely_place(&mut self, entry: Entry) -> u32 {
        if entry.length == 0 {
            return 0;
        }
        self.random.within(0, entry.length as usize) as u32
    }

    fn any_place(&mut self, card: &Card, sheet: u32) -> u32 {
        let length = card
            .sheets
            .get(sheet as usize)
            .map_or(0, |entry| entry.length);
        match self.random.within(0, 4) {
            0 => self.around(length),
            1 => self.random.one(&[0, 1, u32::MAX]),
            _ => self.random.within(0, length as usize + 1) as u32,
        }
    }

    /// A payload or a buffer, in 1 case of 16 of another length than 496.
    fn bytes(&mut self) -> Bytes {
        let seed = self.random.one(&[0, 1, 2, 3, 4, 5, 6, 7]);
        let seed = if seed > 3 {
            self.random.draw() as u32 | 4
        } else {
            seed
        };
        let length = if self.random.chance(1, 16) {
            self.random.one(&[0, 1, 495, 497, 504, 512, 1024])
        } else {
            496
        };
        Bytes {
            seed,
            length,
            term: None,
        }
    }
}

/// Whether a closing takes its time.
fn is_large(card: &Card) -> bool {
    card.n > 10000
}

/// The lowest blank place of an entry's extent, if it lies on the card.
fn blank_place(card: &Card, entry: Entry) -> Option<u32> {
    (0..entry.length).find(|place| {
        let at = 512 * (entry.start as usize + *place as usize);
        card.bytes
            .get(at..at + 512)
            .is_none_or(|block| block == [0; 512])
    })
}

/// Whether a call of a kind admits the standing of an entry: whether no row of it refuses that.
fn admits(kind: Kind, entry: &Entry) -> bool {
    let refuses = |row: &Row| match row {
        Row::Absent => entry.mark == 0x41,
        Row::Paused => entry.mark == 0x50,
        Row::PausedEmpty => entry.mark == 0x50 && entry.length == 0,
        Row::Open => entry.mark == 0x4f,
        Row::Complete => entry.mark == 0x43,
        _ => false,
    };
    !kind.rows().iter().any(refuses)
}

/// A call of a kind that is accepted on a card with sheets of every standing, all places filled, place 0 with a term, and two
/// free blocks or more behind each extent. It is made by any role that may make it.
pub fn accepted(kind: Kind, card: &Card, random: &mut Random) -> Call {
    let role = random.one(&admitted(kind.name()));
    if !kind.has_sheet() {
        return call(kind, 0, whole_number(kind, card, random)).by(role);
    }
    let sheets: Vec<usize> = (0..card.sheets.len())
        .filter(|sheet| admits(kind, &card.sheets[*sheet]))
        .collect();
    let sheet = random.one(&sheets);
    let number = match kind.without_summary() {
        Kind::Reserve | Kind::ReservePlaced | Kind::Offer | Kind::Accept | Kind::Grow => {
            random.within(1, 3)
        }
        Kind::Put | Kind::Show | Kind::ShowDated => {
            random.within(0, card.sheets[sheet].length as usize)
        }
        _ => 0,
    };
    let call = call(kind, sheet as u32, number as u32);
    let call = match kind.without_summary() {
        Kind::ReservePlaced => placed(call.sheet, call.number, admitting(card, number, random)),
        Kind::Accept => {
            let start = some_start(card, number, random);
            accept(call.sheet, start as u32, call.number)
        }
        Kind::ShowDated => {
            let term = card.term(card.sheets[sheet]);
            dated(call.sheet, call.number, date_within(term, random))
        }
        _ => call,
    };
    Call { kind, ..call }.by(role)
}

/// n of a fresh, k of a search, or the words of a closing's scratch.
fn whole_number(kind: Kind, card: &Card, random: &mut Random) -> u32 {
    match kind {
        Kind::Fresh => card.n as u32,
        Kind::Search => random.within(1, 3) as u32,
        kind if kind.has_scratch() => scratch_words(card.n) as u32,
        _ => 0,
    }
}
