//! A random script for the console (desk/), with an `expect` line behind every call: what the ledger answers to it, what is
//! shown, and who holds each block then.

use crate::blocks::{figures, least_fit, plain, space, survey, FREE};
use crate::calendar::date;
use crate::call::{accept, call, dated, orders, placed, Call, Kind, Limits, LARGEST};
use crate::card::Answer::{self, *};
use crate::card::{wing_of, Entry};
use crate::ledger::Ledger;
use crate::random::Random;
use crate::roles::{may, CARER, PHARMACIST, SERVICE, UNKNOWN};
use crate::rows::Row;
use std::fmt::Write;

const PAYLOAD: usize = 496;

struct Script {
    random: Random,
    ledger: Ledger,
    n: usize,
    c: usize,
    limits: Limits,
    role: u32,
    /// As it was when an image was saved, until a release, a closing or a fresh is accepted: after these the card may hold
    /// something else where that image has a sheet.
    saved: Option<Ledger>,
    text: String,
}

/// The script of a seed: a card of up to 64 blocks, so that the console prints a letter to a block.
pub fn script(seed: u64) -> String {
    let mut random = Random::of(seed);
    let (n, c) = (random.within(1, 65), random.within(1, 9));
    let mut script = Script {
        ledger: Ledger::fresh(n, c),
        n,
        c,
        limits: LARGEST,
        role: PHARMACIST,
        saved: None,
        text: format!("fresh {n} {c}\nexpect 0 0 0 0\n"),
        random,
    };
    if script.random.chance(1, 2) {
        script.text += "summary on\n";
    }
    for _ in 0..script.random.within(20, 120) {
        script.step();
    }
    script.text
}

impl Script {
    /// A call, and what has to come of it. Now and then a limit or who makes the calls is changed before it.
    fn step(&mut self) {
        if self.random.chance(1, 20) {
            self.limit();
        }
        let of = if self.role == PHARMACIST { 16 } else { 4 };
        if self.random.chance(1, of) {
            self.change_role();
        }
        match self.random.within(0, 30) {
            0 => self.survey(),
            1 => self.search(),
            2 => self.save_and_load(),
            3 => self.summary(),
            5 | 6 => self.cut(),
            4 => self.fresh(),
            _ => self.list_call(),
        }
        let letters = self.letters();
        writeln!(self.text, "expect card {letters}").unwrap();
    }

    /// Somebody else makes the calls from here on.
    fn change_role(&mut self) {
        let unknown = self.random.one(UNKNOWN);
        let roles = [PHARMACIST, PHARMACIST, CARER, CARER, SERVICE, unknown];
        self.role = self.random.one(&roles);
        let name = match self.role {
            PHARMACIST => "pharmacist".to_string(),
            CARER => "carer".to_string(),
            SERVICE => "service".to_string(),
            number => number.to_string(),
        };
        writeln!(self.text, "role {name}").unwrap();
    }

    /// The answer of a call that is no member of a list, if the role may make it.
    fn answered(&self, call: &str, answer: Answer) -> Answer {
        match may(self.role, call) {
            true => answer,
            false => Refused(21),
        }
    }

    fn survey(&mut self) {
        let counts = survey(&self.ledger.map(), self.n);
        let answer = Counted(counts.free, counts.runs, counts.longest);
        let expected = expect(&self.answered("survey", answer));
        writeln!(self.text, "survey\n{expected}").unwrap();
    }

    fn search(&mut self) {
        let (map, k) = (self.ledger.map(), self.random.within(0, self.n + 2));
        let answer = match least_fit(&map, plain(self.n), k) {
            _ if k == 0 => Refused(3),
            Some(start) => Start(start, space(&map, start)),
            None => Refused(10),
        };
        let expected = expect(&self.answered("search", answer));
        writeln!(self.text, "search {k}\n{expected}").unwrap();
    }

    /// A summary that was just built is the map's own.
    fn summary(&mut self) {
        let built = expect(&self.answered("summary-build", Done));
        let checked = expect(&self.answered("summary-check", Own(true)));
        writeln!(self.text, "summary on\n{built}\nsummary check\n{checked}").unwrap();
    }

    /// The card is made anew, seldom by who may.
    fn fresh(&mut self) {
        let answer = self.answered("fresh", Done);
        if answer == Done && !self.random.chance(1, 4) {
            return;
        }
        if answer == Done {
            self.ledger = Ledger::fresh(self.n, self.c);
            self.saved = None;
        }
        let expected = expect(&answer);
        writeln!(self.text, "fresh {} {}\n{expected}", self.n, self.c).unwrap();
    }

    /// What was just saved is loaded, and leaves all as it was.
    fn save_and_load(&mut self) {
        let saved = self.answered("save", Done);
        writeln!(self.text, "save\n{}", expect(&saved)).unwrap();
        if saved == Done {
            self.saved = Some(self.ledger.clone());
            if self.random.chance(1, 2) {
                writeln!(self.text, "load\n{}", expect(&Done)).unwrap();
            }
        }
    }

    /// The power is cut. Where all is saved before, all stays as it is. Otherwise the sheets are those that were saved, and
    /// what was put since to a sheet that was Open then is still there.
    fn cut(&mut self) {
        let saved = match (self.saved.take(), may(self.role, "save")) {
            (Some(saved), _) => saved,
            (None, true) => {
                writeln!(self.text, "save\n{}", expect(&Done)).unwrap();
                self.ledger.clone()
            }
            (None, false) => return,
        };
        let held = |sheet, place| self.ledger.payload(sheet, place).cloned();
        self.ledger = Ledger::cut(&saved, held);
        self.saved = Some(self.ledger.clone());
        writeln!(self.text, "cut\n{}", expect(&Done)).unwrap();
    }

    /// A call of a list.
    fn list_call(&mut self) {
        let text = format!("line {}", self.random.within(0, 1000));
        let call = self.call();
        let kind = call.kind;
        let mut slice = payload_of(if kind == Kind::Put { &text } else { "" }, 0);
        let line = if self.is_term(call) {
            slice = payload_of(&text, 8);
            let (first, last) = self.term();
            slice[..4].copy_from_slice(&first.to_be_bytes());
            slice[4..8].copy_from_slice(&last.to_be_bytes());
            format!("term {} {first} {last} {text}", call.sheet)
        } else {
            line_of(call, &text)
        };
        let answer = self.ledger.call(call, &mut slice).unwrap();
        if answer == Done && [Kind::Release, Kind::Close].contains(&kind) {
            self.saved = None;
        }
        self.text += &format!("{line}\n{}\n", expect(&answer));
        let from = match kind {
            Kind::Show => Some(0),
            Kind::ShowDated if call.number == 0 => Some(8),
            Kind::ShowDated => Some(0),
            _ => None,
        };
        if let (Some(from), Done) = (from, answer) {
            self.text += &format!("expect shown {}\n", shown(&slice[from..]));
        }
    }

    /// Some puts to place 0 bring a term.
    fn is_term(&mut self, call: Call) -> bool {
        call.kind == Kind::Put && call.number == 0 && self.random.chance(1, 2)
    }

    /// Two days in July to October 2026, now and then the first after the last.
    fn term(&mut self) -> (u32, u32) {
        let [one, other] = [0, 8].map(|_| self.random.within(9700, 9800) as u32);
        match self.random.chance(1, 8) {
            true => (one.max(other), one.min(other)),
            false => (one.min(other), one.max(other)),
        }
    }

    /// The limit of wing 0 changes: all sheets of so short a catalogue are of this wing.
    fn limit(&mut self) {
        let limit = self.random.within(0, 2 * self.n) as u32;
        self.limits[wing_of(0) as usize] = limit;
        writeln!(self.text, "limit 0 {limit}").unwrap();
    }

    /// Any call with any numbers, or one that the sheet admits as the ledger has it.
    fn call(&mut self) -> Call {
        let sheet = match self.role {
            CARER => self.shown_sheet(),
            _ => self.random.within(0, self.c) as u32,
        };
        let call = match self.random.chance(1, 3) {
            true => self.any_call(),
            false => self.likely_call(sheet),
        };
        call.with_limits(self.limits).by(self.role)
    }

    /// Mostly a sheet is filled and completed, so that there is something to show. A carer asks for what can be shown.
    fn likely_call(&mut self, sheet: u32) -> Call {
        use Kind::*;
        let entry = self.ledger.entry(sheet as usize);
        let place = self.random.within(0, entry.length.max(1) as usize) as u32;
        match entry.mark {
            0x41 => call(Reserve, sheet, self.random.within(1, 4) as u32),
            0x50 => call(self.random.one(&[Resume, Resume, Release]), sheet, 0),
            0x4f => call(self.random.one(&[Put, Put, Put, Complete]), sheet, place),
            _ => match self.random.within(0, 8) {
                0 => call(self.random.one(&[Pause, Pause, Release]), sheet, 0),
                1..=3 => call(Show, sheet, place),
                _ => self.dated_show(sheet, place),
            },
        }
    }

    /// A Complete sheet if there is one, else any.
    fn shown_sheet(&mut self) -> u32 {
        let sheets = 0..self.c as u32;
        let complete = sheets.filter(|sheet| self.ledger.entry(*sheet as usize).mark == 0x43);
        let complete: Vec<u32> = complete.collect();
        match complete.is_empty() {
            true => self.random.within(0, self.c) as u32,
            false => self.random.one(&complete),
        }
    }

    /// The days of the terms are in July to October 2026.
    fn dated_show(&mut self, sheet: u32, place: u32) -> Call {
        let month = self.random.one(&[0, 2, 7, 8, 8, 8, 9, 9, 9, 10, 13]);
        let day = self.random.within(0, 32) as u32;
        dated(sheet, place, date(2026, month, day))
    }

    fn any_call(&mut self) -> Call {
        use Kind::*;
        let kinds = [
            Reserve, Offer, Put, Grow, Complete, Pause, Resume, Release, Close, Show, Standing,
        ];
        let sheet = self.random.within(0, self.c + 1) as u32;
        let number = self.random.within(0, self.n + 3) as u32;
        let [start, before] = [1, 2].map(|past| self.random.within(0, self.n + past) as u32);
        match self.random.within(0, 16) {
            0 | 1 => {
                let step = self.random.within(0, 9) as u32;
                placed(sheet, number, figures(start, before, step))
            }
            2 | 3 => accept(sheet, start, number),
            4 => self.dated_show(sheet, number),
            _ => call(self.random.one(&kinds), sheet, number),
        }
    }

    /// A letter to a block: the number of its sheet, or a dot.
    fn letters(&self) -> String {
        let map = self.ledger.map();
        let holder = |block: usize| {
            let holds = |sheet: &usize| covers(self.ledger.entry(*sheet), block);
            (0..self.c).find(holds).unwrap().to_string()
        };
        let letter = |block| {
            if map[block] == FREE {
                ".".to_string()
            } else {
                holder(block)
            }
        };
        (0..self.n).map(letter).collect()
    }
}

fn covers(entry: Entry, block: usize) -> bool {
    let start = entry.start as usize;
    (start..start + entry.length as usize).contains(&block)
}

/// A text as the console puts it: from a byte on, and zeros around it.
fn payload_of(text: &str, at: usize) -> Vec<u8> {
    let mut payload = vec![0; PAYLOAD];
    payload[at..at + text.len()].copy_from_slice(text.as_bytes());
    payload
}

/// A payload as the console shows it: without the zeros behind it, and what is no letter or sign in hex.
fn shown(payload: &[u8]) -> String {
    let length = payload
        .iter()
        .rposition(|&byte| byte != 0)
        .map_or(0, |last| last + 1);
    let sign = |&byte: &u8| match byte {
        0x20..=0x7e => (byte as char).to_string(),
        _ => format!("\\x{byte:02X}"),
    };
    payload[..length].iter().map(sign).collect()
}

fn line_of(call: Call, text: &str) -> String {
    let (sheet, number) = (call.sheet, call.number);
    let name = call.kind.name();
    match call.kind {
        Kind::Close => name.to_string(),
        Kind::ReservePlaced => {
            let f = call.figures;
            format!(
                "reserve {sheet} {number} from {} before {} step {}",
                f.from, f.before, f.step
            )
        }
        Kind::Accept => format!("accept {sheet} {} {number}", call.start),
        Kind::Put => format!("put {sheet} {number} {text}"),
        Kind::ShowDated => {
            let d = call.date;
            format!(
                "show {sheet} {number} on {}-{:02}-{:02}",
                d.year, d.month, d.day
            )
        }
        Kind::Reserve | Kind::Offer | Kind::Grow | Kind::Show => format!("{name} {sheet} {number}"),
        _ => format!("{name} {sheet}"),
    }
}

/// The number and the values of an answer.
fn expect(answer: &Answer) -> String {
    let values = match answer {
        Start(first, second) | Offered(first, second) => [0, *first, *second, 0],
        Stands(entry) => [
            0,
            entry.mark as usize,
            entry.start as usize,
            entry.length as usize,
        ],
        Counted(first, second, third) => [0, *first, *second, *third],
        Own(own) => [0, *own as usize, 0, 0],
        Blank(place) => [9, *place, 0, 0],
        Refused(number) => [*number as usize, 0, 0, 0],
        Done => [0; 4],
    };
    let [number, first, second, third] = values;
    format!("expect {number} {first} {second} {third}")
}

/// The numbers that can refuse each of the console's calls, in their order, as its `help` has to list them. Rows with the same
/// number that follow each other are one there.
pub fn rows() -> String {
    let listed = orders().filter(|(name, _)| !name.starts_with("summary") && !PLAIN.contains(name));
    let line = |(name, rows): (&str, &[Row])| {
        let mut numbers: Vec<u32> = rows.iter().map(|row| row.number()).collect();
        numbers.dedup();
        let name = name.split('-').next().unwrap();
        let numbers: Vec<String> = numbers.iter().map(u32::to_string).collect();
        format!("{name} {}\n", numbers.join(" "))
    };
    listed.map(line).collect()
}

/// The calls whose rows are among those of a form with more arguments, which stands for both in the console's help.
const PLAIN: [&str; 2] = ["reserve", "show"];
