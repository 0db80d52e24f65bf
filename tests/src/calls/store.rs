//! What the calls of the examples work on, and what a line of them prints.

use crate::blocks::{figures, from_words, to_words};
use crate::calendar::date;
use crate::call::{accept, call, dated, placed, Bytes, Call, Kind, Limits};
use crate::card::{entry, Answer, Card, Entry};
use crate::roles::PHARMACIST;
use crate::rows::Row;

/// Who makes the calls of a list: the card, worked out here, or the C library (tests/outside). A call is made on what the card
/// has, with the payload or the buffer and the scratch that it is lent; all is then as it left it.
pub type Caller = fn(&mut Card, Call, &mut [u8], &mut [u64]) -> Answer;

/// The card itself: what the outcomes come from.
pub(crate) fn by_card(
    card: &mut Card,
    call: Call,
    slice: &mut [u8],
    scratch: &mut [u64],
) -> Answer {
    scratch.fill(0);
    card.call(call, slice)
}

/// What the calls work on, of which they are lent the first words, entries, bytes and numbers of the summary.
pub(super) struct Store {
    caller: Caller,
    n: usize,
    free: usize,
    map: Vec<bool>,
    sheets: Vec<Entry>,
    bytes: Vec<u8>,
    summary: Vec<u32>,
    /// How many numbers of the summary, from the first on, are open: a call changed the map with a false one.
    open: usize,
    /// The limits of the eight wings that go with the calls, once a line has named them (`+limits`); before that each is n.
    limits: Option<Limits>,
    /// Who makes the calls: a line names another role (`+role`), before one does it is the pharmacist's.
    role: u32,
    /// What the last call left in its buffer, if it was a show or a dated one.
    buffer: Option<Vec<u8>>,
    /// What it left in the scratch, if it was a closing: four words that held something, of which it is lent the first.
    scratch: Option<[u64; 4]>,
    words_lent: usize,
    sheets_lent: usize,
    bytes_lent: usize,
    numbers_lent: usize,
}

/// Bytes of a payload: each is 7 more than the one before it, modulo 256.
fn payload(first: u32, length: usize) -> Vec<u8> {
    let byte = |i| (first as usize + 7 * i) as u8;
    (0..length).map(byte).collect()
}

/// A put whose payload starts with two days (document 02, (m)): sheet, place, the first day and the last.
const PUT_TERM: &str = "put-term";

/// The payload that a line's put brings. A put has its first byte and its length behind sheet and place; a put of a term has
/// the two days there, 4 bytes each, and the other bytes are those of a payload whose first is 0.
fn brought(word: &str, numbers: &[u32]) -> Vec<u8> {
    match (word, numbers) {
        ("put", [_, _, first, length]) => payload(*first, *length as usize),
        (PUT_TERM, [_, _, first, last]) => {
            let mut payload = payload(0, 496);
            payload[..4].copy_from_slice(&first.to_be_bytes());
            payload[4..8].copy_from_slice(&last.to_be_bytes());
            payload
        }
        _ => Vec::new(),
    }
}

/// The kind of call that a line's word names.
fn kind_of(word: &str) -> Kind {
    match word {
        PUT_TERM => Kind::Put,
        _ => Kind::named(word).expect("a call"),
    }
}

/// The call of a kind with the numbers of its line, which are at most five: a dated show has no length, for its buffer is as
/// long as it should be. A payload's contents are not here (`brought`).
fn call_of(word: &str, numbers: &[u32]) -> Call {
    let kind = kind_of(word);
    let at = |i: usize| numbers.get(i).copied().unwrap_or(0);
    let length = match word {
        "put" => at(3),
        "show" => at(2),
        PUT_TERM | "show-dated" => 496,
        _ => 0,
    };
    let bytes = Bytes {
        seed: 0,
        length: length as usize,
        term: None,
    };
    let call = match kind.without_summary() {
        Kind::ReservePlaced => placed(at(0), at(1), figures(at(2), at(3), at(4))),
        Kind::Accept => accept(at(0), at(1), at(2)),
        Kind::ShowDated => dated(at(0), at(1), date(at(2), at(3), at(4))),
        _ if kind.has_sheet() => call(kind, at(0), at(1)),
        _ => call(kind, 0, at(0)),
    };
    Call { kind, ..call }.with_bytes(bytes)
}

impl Store {
    /// A shape of 9 blocks, damaged entries, and words, bytes and a summary that held something before. There is one number
    /// more than the summary of three words has.
    pub(super) fn new(caller: Caller) -> Store {
        Store {
            caller,
            n: 9,
            free: 9,
            map: from_words(&[0x0123456789abcdef; 3]),
            sheets: vec![entry(0, 0, 0); 1025],
            bytes: vec![0xaa; 71 * 512],
            summary: vec![7; 22],
            open: 0,
            limits: None,
            role: PHARMACIST,
            buffer: None,
            scratch: None,
            words_lent: 2,
            sheets_lent: 4,
            bytes_lent: 70 * 512,
            numbers_lent: 9,
        }
    }

    pub(super) fn lines(&mut self, texts: &str) -> String {
        texts
            .lines()
            .map(|text| text.trim())
            .filter(|text| !text.is_empty())
            .map(|text| self.line(text))
            .collect()
    }

    /// The call or the change that a line describes by a word and numbers, and its line.
    pub(super) fn line(&mut self, text: &str) -> String {
        let (word, rest) = text.split_once(' ').unwrap_or((text, ""));
        let numbers: Vec<u32> = rest
            .split_terminator(' ')
            .map(|n| n.parse().unwrap())
            .collect();
        self.buffer = word.starts_with("show").then(|| vec![0xbb; 500]);
        self.scratch = word
            .ends_with("close")
            .then_some([0xcccc_cccc_cccc_cccc; 4]);
        if let Some(change) = word.strip_prefix('+') {
            self.change(change, &numbers);
            return format!("{text}{}\n", self.end());
        }
        let answer = answered(self.call(word, &numbers));
        let summary = match word {
            "summary-build" | "summary-check" => self.summary_told(),
            _ => String::new(),
        };
        format!("{text}: {answer}{}{summary}\n", self.end())
    }

    /// A call, on what is lent. A refused one leaves all as it was, and so does an offer.
    fn call(&mut self, word: &str, numbers: &[u32]) -> Answer {
        let limits = self.limits.unwrap_or([self.n as u32; 8]);
        let call = call_of(word, numbers).with_limits(limits).by(self.role);
        let card = &mut self.lent();
        let before = card.clone();
        self.must_be_settled(card, call);
        let mut brought = brought(word, numbers);
        let slice = match &mut self.buffer {
            Some(buffer) => &mut buffer[..call.bytes.length],
            None => &mut brought[..],
        };
        let scratch = match &mut self.scratch {
            Some(scratch) => &mut scratch[..call.number as usize],
            None => &mut [],
        };
        let answer = (self.caller)(card, call, slice, scratch);
        if let Answer::Refused(_) | Answer::Blank(_) | Answer::Offered(..) = answer {
            assert!(*card == before, "it changed something: {word} {numbers:?}");
        } else {
            self.note_open(call.kind, &before, card);
        }
        self.take_back(card);
        answer
    }

    fn lent(&self) -> Card {
        Card {
            n: self.n,
            free: self.free,
            map: self.map[..64 * self.words_lent].to_vec(),
            sheets: self.sheets[..self.sheets_lent].to_vec(),
            bytes: self.bytes[..self.bytes_lent].to_vec(),
            summary: self.summary[..self.numbers_lent].to_vec(),
        }
    }

    fn take_back(&mut self, card: &Card) {
        (self.n, self.free) = (card.n, card.free);
        self.map[..64 * self.words_lent].copy_from_slice(&card.map);
        self.sheets[..self.sheets_lent].copy_from_slice(&card.sheets);
        self.bytes[..self.bytes_lent].copy_from_slice(&card.bytes);
        self.summary[..self.numbers_lent].copy_from_slice(&card.summary);
    }

    fn change(&mut self, word: &str, numbers: &[u32]) {
        let at = |i: usize| numbers[i] as usize;
        match word {
            "lend" => (self.words_lent, self.sheets_lent, self.bytes_lent) = (at(0), at(1), at(2)),
            "shape" => (self.n, self.free) = (at(0), at(1)),
            "entry" => self.sheets[at(0)] = entry(numbers[1], numbers[2], numbers[3]),
            "word" => {
                let blocks = from_words(&[(numbers[1] as u64) << 32 | numbers[2] as u64]);
                self.map[64 * at(0)..64 * at(0) + 64].copy_from_slice(&blocks);
            }
            "byte" => self.bytes[at(0)] ^= numbers[1] as u8,
            "summary" => self.numbers_lent = at(0),
            "number" => self.summary[at(0)] = numbers[1],
            "role" => self.role = numbers[0],
            "limits" => self.limits = Some(numbers.try_into().expect("eight limits")),
            other => panic!("no change {other}"),
        }
    }

    /// The end of a line: n, the free count, and the digests of map, catalogue and card, for show of its buffer and for a
    /// closing of its scratch.
    fn end(&self) -> String {
        let halves = |words: &[u64]| {
            let halves = words
                .iter()
                .flat_map(|word| [(word >> 32) as u32, *word as u32]);
            digest(halves)
        };
        let fields = self.sheets.iter().flat_map(|e| [e.mark, e.start, e.length]);
        let bytes = |bytes: &[u8]| digest(bytes.iter().map(|&byte| byte as u32));
        let map = halves(&to_words(&self.map));
        let mut digests = vec![map, digest(fields), bytes(&self.bytes)];
        digests.extend(self.buffer.iter().map(|buffer| bytes(buffer)));
        digests.extend(self.scratch.iter().map(|scratch| halves(scratch)));
        let digests: String = digests
            .iter()
            .map(|digest| format!(" {digest:08x}"))
            .collect();
        format!("; {} {}{digests}", self.n, self.free)
    }

    /// Behind the end of the line of a build or a check: the three numbers of group 0, and the digest of all numbers.
    fn summary_told(&self) -> String {
        assert!(self.open == 0, "what the summary holds is open");
        let [head, tail, longest] = [0, 1, 2].map(|at| self.summary[at]);
        let all = digest(self.summary.iter().copied());
        format!(" {head} {tail} {longest} {all:08x}")
    }

    /// An example cannot hang on what document 02, (j), leaves open.
    fn must_be_settled(&self, card: &Card, call: Call) {
        let searches = call.kind.has_summary() && call.kind.rows().contains(&Row::NoFit);
        let comes_to_it = card.first(call).is_none_or(|row| row >= Row::NoFit);
        let open = searches && comes_to_it && (self.open > 0 || card.leaves_search_open(call));
        assert!(!open, "what {call} finds is open");
    }

    /// With a false summary it is open which numbers an accepted call leaves that changes the map. A build settles those that
    /// it is lent, and so does a closing.
    fn note_open(&mut self, kind: Kind, before: &Card, after: &Card) {
        let lent = self.numbers_lent;
        let was_open = self.open > 0 || !before.has_own_summary();
        if kind.builds_anew() && lent >= self.open {
            self.open = 0;
        } else if kind.has_summary() && was_open && before.map != after.map {
            self.open = self.open.max(lent);
        }
    }
}

/// One number: from 1 on, 31 times the number and the next item added, modulo 2^32.
fn digest(items: impl Iterator<Item = u32>) -> u32 {
    items.fold(1, |sum: u32, item| sum.wrapping_mul(31).wrapping_add(item))
}

/// The number of an answer, 0 where the call was not refused, and its values.
fn answered(answer: Answer) -> String {
    match answer {
        Answer::Done => "0".to_string(),
        Answer::Start(start, space) => format!("0 {start} {space}"),
        Answer::Offered(start, length) => format!("0 {start} {length}"),
        Answer::Stands(Entry {
            mark,
            start,
            length,
        }) => format!("0 {mark} {start} {length}"),
        Answer::Counted(free, runs, longest) => format!("0 {free} {runs} {longest}"),
        Answer::Own(own) => format!("0 {}", own as u32),
        Answer::Blank(place) => format!("9 {place}"),
        Answer::Refused(row) => format!("{row}"),
    }
}
