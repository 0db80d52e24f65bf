//! The calls of calls.c, worked out bit by bit by the card of tests/src. Which calls it makes of a sound card is told by the
//! names that it prints: the word of the call, and its numbers; other words tell it from another call of that name.

use bitwise::blocks::{figures, from_words, to_words};
use bitwise::calendar::date;
use bitwise::call::{accept, call, dated, placed, Call, Kind, Limits, CALLS};
use bitwise::card::{entry, sealed, Answer, Card};
use bitwise::roles::{admitted, PHARMACIST};
use bitwise::summary::summary_numbers;
use std::fmt::Write;

const N: usize = 70;
const C: u32 = 3;
/// The refusals of calls on a sound card with slices of the right lengths.
const REFUSALS: [u32; 15] = [2, 3, 5, 6, 7, 8, 9, 10, 11, 15, 17, 18, 19, 20, 21];

/// What the scratch has before.
const HELD: [u64; 2] = [0xfedcba9876543210, 0xfedcba9876543211];

/// What calls.c keeps: the role, the limits, the card, and the slices that a call may be lent besides.
struct State {
    role: u32,
    limits: Limits,
    card: Card,
    scratch: Vec<u64>,
    image: Vec<u8>,
    slice: Vec<u8>,
    lines: Vec<(String, String)>,
    /// The calls of a sound card, with their roles and their numbers: 0 for a call that is done, else the refusal's.
    made: Vec<(u32, Kind, u32)>,
}

/// A number for a run of bytes (FNV-1a).
fn number_of(bytes: &[u8]) -> u64 {
    bytes.iter().fold(0xcbf29ce484222325, |number, &byte| {
        (number ^ byte as u64).wrapping_mul(0x100000001b3)
    })
}

fn filled(length: usize, seed: u32) -> Vec<u8> {
    (0..length)
        .map(|i| (seed as usize + 7 * i + i / 256) as u8)
        .collect()
}

/// The number and the values of an answer (document 01, "What the caller gets instead").
fn numbers(answer: Answer) -> (u32, [usize; 3]) {
    match answer {
        Answer::Done => (0, [0; 3]),
        Answer::Start(start, space) => (0, [start, space, 0]),
        Answer::Offered(start, length) => (0, [start, length, 0]),
        Answer::Stands(e) => (0, [e.mark, e.start, e.length].map(|number| number as usize)),
        Answer::Counted(free, runs, longest) => (0, [free, runs, longest]),
        Answer::Own(own) => (0, [own as usize, 0, 0]),
        Answer::Blank(place) => (9, [place, 0, 0]),
        Answer::Refused(number) => (number, [0; 3]),
    }
}

/// The numbers in a name that calls.c prints.
fn numbers_in(name: &str) -> Vec<u32> {
    let words = name.split(' ');
    words.filter_map(|word| word.parse().ok()).collect()
}

/// The call of a kind with the numbers in the name that calls.c prints, in the order of the prototype.
fn call_of(kind: Kind, name: &str) -> Call {
    let numbers = numbers_in(name);
    let at = |i: usize| numbers.get(i).copied().unwrap_or(0);
    let call = match kind.without_summary() {
        Kind::ReservePlaced => placed(at(0), at(1), figures(at(2), at(3), at(4))),
        Kind::Accept => accept(at(0), at(1), at(2)),
        Kind::ShowDated => dated(at(0), at(1), date(at(2), at(3), at(4))),
        _ if kind.has_sheet() => call(kind, at(0), at(1)),
        _ => call(kind, 0, at(0)),
    };
    Call { kind, ..call }
}

impl State {
    fn new() -> State {
        let card = Card {
            n: 0,
            free: 0,
            map: vec![],
            sheets: vec![],
            bytes: filled(512 * N, 5),
            summary: vec![],
        };
        let mut state = State {
            role: PHARMACIST,
            limits: [N as u32, 1, 2, 3, 4, 5, 6, 7],
            card,
            scratch: vec![],
            image: filled(512, 6),
            slice: vec![],
            lines: vec![],
            made: vec![],
        };
        state.disorder();
        state
    }

    fn disorder(&mut self) {
        (self.card.n, self.card.free) = (11, 12);
        self.card.map = from_words(&[0x0123456789abcdef, 0x0123456789abcdf0]);
        self.scratch = HELD.to_vec();
        self.card.sheets = (0..C)
            .map(|s| entry(3 * s + 1, 3 * s + 2, 3 * s + 3))
            .collect();
        self.card.summary = (40..).take(summary_numbers(N)).collect();
        self.slice = filled(496, 99);
    }

    fn line(&mut self, call: &str, value: String) {
        self.lines.push((call.to_string(), value));
    }

    fn told(&mut self, call: &str, answer: Answer) {
        let (number, [first, second, third]) = numbers(answer);
        let card = &self.card;
        let mut line = format!("shape {} {} number {number}", card.n, card.free);
        write!(line, " values {first} {second} {third} map").unwrap();
        let words = |words: &[u64]| {
            words
                .iter()
                .map(|word| format!(" {word:016x}"))
                .collect::<String>()
        };
        line += &words(&to_words(&card.map));
        line += " catalogue";
        for e in &card.sheets {
            write!(line, " {}/{}/{}", e.mark, e.start, e.length).unwrap();
        }
        line += " scratch";
        line += &words(&self.scratch);
        line += " summary";
        for number in &card.summary {
            write!(line, " {number}").unwrap();
        }
        let slices = [&card.bytes, &self.image, &self.slice].map(|slice| number_of(slice));
        write!(
            line,
            " card {:016x} image {:016x} slice {:016x}",
            slices[0], slices[1], slices[2]
        )
        .unwrap();
        self.line(call, line);
    }

    /// The first `length` bytes of the image are lent.
    fn save(&mut self, call: &str, length: usize) {
        self.scratch = HELD.to_vec();
        let image = &mut self.image[..length];
        let answer = self.card.save(self.role, &mut self.scratch, image);
        self.told(call, answer);
    }

    fn load(&mut self, call: &str) {
        self.scratch = HELD.to_vec();
        let answer = self.card.load(self.role, &self.image, &mut self.scratch);
        self.told(call, answer);
    }

    /// A call that changes the card, or asks it. A put brings bytes of its own, a show a buffer that is filled before, and a
    /// closing a scratch that is, of which it is lent some words.
    fn call(&mut self, name: &str, call: Call) {
        match call.kind {
            Kind::Put => self.slice = filled(496, 16 * call.sheet + call.number),
            Kind::Show | Kind::ShowDated => self.slice = filled(496, 99),
            kind if kind.has_scratch() => {
                self.scratch = HELD.to_vec();
                self.scratch[..call.number as usize].fill(0);
            }
            _ => {}
        }
        let call = call.with_limits(self.limits).by(self.role);
        let answer = self.card.call(call, &mut self.slice);
        self.made.push((call.role, call.kind, numbers(answer).0));
        self.told(name, answer);
    }

    /// Another role for the calls that follow (document 02, (n)).
    fn by_role(&mut self, name: &str) {
        if let [role] = numbers_in(name)[..] {
            self.role = role;
        }
        self.line(name, String::new());
    }

    /// Another limit for the first wing (document 02, (k)), in which all sheets are.
    fn limit(&mut self, name: &str) {
        if let [blocks] = numbers_in(name)[..] {
            self.limits[0] = blocks;
        }
        self.line(name, String::new());
    }

    /// A put whose payload starts with two days (document 02, (m)), 4 bytes each, the high byte first.
    fn put_term(&mut self, name: &str) {
        let [sheet, place, first, last] = numbers_in(name)[..] else {
            return self.line(name, "has a sheet, a place and two days".to_string());
        };
        self.slice = filled(496, 16 * sheet + place);
        let days = [first.to_be_bytes(), last.to_be_bytes()].concat();
        self.slice[..8].copy_from_slice(&days);
        let put = call(Kind::Put, sheet, place).by(self.role);
        let answer = self.card.call(put, &mut self.slice);
        self.told(name, answer);
    }

    /// A build that is lent a summary without its last number.
    fn build_short(&mut self, name: &str) {
        let last = self.card.summary.pop();
        let build = call(Kind::SummaryBuild, 0, 0).by(self.role);
        let answer = self.card.call(build, &mut []);
        self.card.summary.extend(last);
        self.told(name, answer);
    }

    /// What calls.c does of a sound card, by the name that it prints.
    fn named(&mut self, name: &str) {
        let word = name.split(' ').next().unwrap_or("");
        match (name, Kind::named(word)) {
            ("save" | "save turned", _) => self.save(name, 512),
            ("save short", _) => self.save(name, 511),
            ("load turned", _) => self.load(name),
            ("summary-build short", _) => self.build_short(name),
            ("head", _) => self.line(name, format!("{N} {C}")),
            _ if word == "put-term" => self.put_term(name),
            _ if word == "limit" => self.limit(name),
            _ if word == "role" => self.by_role(name),
            (_, None) => self.line(word, "is no call of document 01".to_string()),
            (_, Some(kind)) => self.call(name, call_of(kind, name)),
        }
    }

    fn images(&mut self) {
        self.disorder();
        self.image[100] ^= 1;
        self.load("load damaged");
        self.image[100] ^= 1;
        let mut payload = self.image[8..504].to_vec();
        payload[11] = 0;
        self.image = sealed(0, 1, &payload);
        self.line("seal no sheets", "0".to_string());
        self.load("load no sheets");
        payload[11] = C as u8;
        self.image = sealed(0, 1, &payload);
        self.line("seal sheets", "0".to_string());
        self.load("load");
        self.card.sheets[1].mark = 0;
        self.call("standing damaged 1", call(Kind::Standing, 1, 0));
        self.save("save damaged", 512);
        self.card.free = N + 1;
        self.call("survey free above n", call(Kind::Survey, 0, 0));
    }

    fn blocks(&mut self) {
        let block = sealed(0x01020304, 0x05060708, &filled(496, 77));
        self.line("seal", format!("0 block {:016x}", number_of(&block)));
        for (call, answer) in [
            ("check", 1),
            ("check damaged", 0),
            ("check short", 3),
            ("seal short payload", 3),
            ("seal short block", 3),
        ] {
            self.line(call, answer.to_string());
        }
    }
}

/// Dose counts (document 02, request (e)): 1,234.56 is the digits 00123456, two a byte, at byte 4 · 123.
/// Then a term (document 02, (m)): days 8,825 and 36,524 are 2279 and 8EAC in hex.
fn doses() -> Vec<(&'static str, String)> {
    let mut payload = vec![0x11; 496];
    payload[492..].copy_from_slice(&[0x00, 0x12, 0x34, 0x56]);
    let mut with_term = payload.clone();
    with_term[..8].copy_from_slice(&[0, 0, 0x22, 0x79, 0, 0, 0x8e, 0xac]);
    with_term[8] = 0x1a;
    vec![
        (
            "write count",
            format!("0 slice {:016x}", number_of(&payload)),
        ),
        ("read count", "0 123456".to_string()),
        ("write absent", "0".to_string()),
        ("read absent", format!("0 {}", u32::MAX)),
        ("read digit", format!("16 {}", u32::MAX)),
        ("write short", "3".to_string()),
        (
            "write term",
            format!("0 slice {:016x}", number_of(&with_term)),
        ),
        ("write short term", "3".to_string()),
    ]
}

/// What calls.c should do of a sound card, and does not: every call, and every refusal.
fn missing(state: &State) -> Vec<String> {
    let mut wrong = Vec::new();
    for (kind, name, _) in CALLS {
        for role in admitted(name) {
            if !state.made.contains(&(role, kind, 0)) {
                wrong.push(format!(
                    "calls.c makes no call of {name} by role {role} that is done"
                ));
            }
        }
        let mut made = state.made.iter();
        if !made.any(|(_, other, number)| (*other, *number) == (kind, 21)) {
            wrong.push(format!(
                "calls.c makes no call of {name} that is turned away"
            ));
        }
    }
    for number in REFUSALS {
        if !state.made.iter().any(|(.., made)| *made == number) {
            wrong.push(format!(
                "calls.c makes no call that is refused with {number}"
            ));
        }
    }
    for name in [
        "save",
        "save short",
        "save turned",
        "load turned",
        "summary-build short",
        "head",
    ] {
        if !state.lines.iter().any(|(line, _)| line == name) {
            wrong.push(format!("calls.c has no line `{name}`"));
        }
    }
    wrong
}

/// What is wrong in what calls.c printed, and how many lines were compared.
pub fn compare(printed: &str) -> (Vec<String>, usize) {
    let mut state = State::new();
    let names = printed
        .lines()
        .map(|line| line.split('\t').next().unwrap_or(""));
    for name in names.take_while(|name| *name != "load damaged") {
        state.named(name);
    }
    let mut wrong = missing(&state);
    state.images();
    state.blocks();
    for (call, value) in doses() {
        state.line(call, value);
    }
    for (call, value) in crate::days::days() {
        state.line(&call, value);
    }
    state.line("end", String::new());
    let mut lines = printed.lines();
    for (call, expected) in &state.lines {
        let line = lines.next().unwrap_or("");
        let (name, value) = line.split_once('\t').unwrap_or((line, ""));
        if (name, value) != (call.as_str(), expected.as_str()) {
            wrong.push(format!(
                "the call `{call}`\n    gave through the header  {name}: {value}\n\
                 {0:4}and by document 01       {call}: {expected}",
                ""
            ));
        }
    }
    wrong.extend(lines.map(|line| format!("calls.c printed more: {line}")));
    (wrong, state.lines.len())
}
