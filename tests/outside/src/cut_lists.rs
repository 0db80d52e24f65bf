//! Worked lists that break the rule for saving, each in one of its parts, and what the last image shows after the cut then. The
//! same lists with the rule kept show nothing wrong.

use crate::beside::{Beside, Compared};
use crate::closing::close_of;
use crate::counts::Counts;
use crate::cut_shows::{after_cut, Cut, Found, Places, Saved};
use bitwise::call::{accept, call, Bytes, Call, Kind};
use bitwise::card::{entry, Card};
use bitwise::image::{body_of, image_of};
use bitwise::ledger::Ledger;
use bitwise::summary::summary_numbers;

/// A line of a list: a call, a save, or the power that is cut.
enum Line {
    Make(Call),
    Close,
    Save,
    Cut,
}

use Line::{Close as CloseCard, Cut as PowerCut, Make, Save};

struct List {
    beside: Beside,
    ledger: Ledger,
    saved: Saved,
    closed: bool,
}

const N: usize = 4;
const C: usize = 2;

impl List {
    fn new(margin: usize) -> List {
        let card = Card {
            n: N,
            free: N,
            map: bitwise::blocks::fresh(N, 1),
            sheets: vec![entry(0x41, 0, 0); C],
            bytes: vec![0; 512 * N],
            summary: vec![0; summary_numbers(N)],
        };
        let (image, ledger) = (image_of(&body_of(&card)), Ledger::fresh(N, C));
        List {
            beside: Beside::new(card, margin, Compared::All),
            saved: Saved {
                image,
                ledger: ledger.clone(),
                lost: Places::new(),
            },
            ledger,
            closed: false,
        }
    }

    fn make(&mut self, call: Call, counts: &mut Counts) -> Result<(), String> {
        if let Some(row) = self.beside.card.first(call) {
            return Err(format!("{call}: refused with {}", row.number()));
        }
        self.beside.call(call, counts)?;
        self.ledger.call(call, &mut call.slice());
        self.closed |= call.kind == Kind::Close;
        Ok(())
    }

    fn save(&mut self) {
        self.saved.image = image_of(&body_of(&self.beside.card));
        self.saved.ledger = self.ledger.clone();
        self.closed = false;
    }

    fn cut(&mut self, margin: usize) -> Result<Found, String> {
        let cut = Cut {
            bytes: self.beside.card.bytes.clone(),
            open: (0..C as u32)
                .filter(|sheet| self.ledger.entry(*sheet as usize).mark == 0x4f)
                .collect(),
            closed: self.closed,
        };
        let found = after_cut(&self.saved, &cut, margin)?;
        let mut card = self.beside.card.clone();
        card.load(1, &self.saved.image, &mut [0]);
        self.beside = Beside::new(card, margin, Compared::All);
        self.ledger = self.saved.ledger.clone();
        self.closed = false;
        Ok(found)
    }

    /// What the last cut of a list finds.
    fn follow(lines: Vec<Line>, margin: usize, counts: &mut Counts) -> Result<Found, String> {
        let mut list = List::new(margin);
        let mut found = Found::default();
        for line in lines {
            match line {
                Make(call) => list.make(call, counts)?,
                CloseCard => list.make(close_of(&list.beside.card), counts)?,
                Save => list.save(),
                PowerCut => found = list.cut(margin)?,
            }
        }
        Ok(found)
    }
}

fn put(sheet: u32, seed: u32) -> Line {
    let bytes = Bytes {
        seed,
        length: 496,
        term: None,
    };
    Make(call(Kind::Put, sheet, 0).with_bytes(bytes))
}

fn of(kind: Kind, sheet: u32) -> Line {
    Make(call(kind, sheet, 1))
}

/// Sheet 0 is Complete and saved; it is released, reserved, and its place 0 is put. The save stands behind the release, or not.
fn written_anew(keeps: bool) -> Vec<Line> {
    use Kind::*;
    let mut lines = vec![of(Reserve, 0), put(0, 5), of(Complete, 0), Save];
    lines.push(of(Release, 0));
    lines.extend(keeps.then_some(Save));
    lines.extend([Make(call(Reserve, 0, 2)), put(0, 6), PowerCut]);
    lines
}

/// The same of a pause without blocks.
fn pause_ended(keeps: bool) -> Vec<Line> {
    use Kind::*;
    let mut lines = vec![of(Pause, 0), Save, of(Release, 0)];
    lines.extend(keeps.then_some(Save));
    lines.extend([of(Reserve, 0), put(0, 6), PowerCut]);
    lines
}

/// B, sheet 1, at block 1 and A, sheet 0, at block 2 are closed, and the old image is loaded: B holds A's block. A is written
/// anew at block 0 and saved; it is released, and the card closed: A's old text comes to block 0. The third part of the rule
/// has sheet 1 released before that closing.
fn closed_twice(keeps: bool) -> Vec<Line> {
    use Kind::*;
    let mut lines = vec![Make(accept(1, 1, 1)), put(1, 5), of(Complete, 1)];
    lines.extend([Make(accept(0, 2, 1)), put(0, 6), of(Complete, 0)]);
    lines.extend([Save, CloseCard, PowerCut]);
    lines.extend([of(Release, 0), Save, of(Reserve, 0), put(0, 7)]);
    lines.extend([of(Complete, 0), Save]);
    lines.extend(keeps.then(|| of(Release, 1)));
    lines.extend([of(Release, 0), CloseCard, PowerCut]);
    lines
}

pub const LISTS: [&str; 3] = [
    "worked list: a text of an unfinished sheet is shown",
    "worked list: an unfinished sheet stands Paused",
    "worked list: an old text is shown after two closings",
];

/// Each list finds what its name says, and nothing with the rule kept.
pub fn worked(margin: usize, counts: &mut Counts) -> Result<(), String> {
    let lists: [fn(bool) -> Vec<Line>; 3] = [written_anew, pause_ended, closed_twice];
    for (name, list) in LISTS.iter().zip(lists) {
        let broken = List::follow(list(false), margin, counts)?;
        let is_found = match *name == LISTS[1] {
            true => !broken.finished.is_empty(),
            false => !broken.wrong.is_empty(),
        };
        let kept = List::follow(list(true), margin, counts)?;
        if !is_found || !kept.nothing() {
            let (broken, kept) = (broken.text(), kept.text());
            return Err(format!(
                "{name}: found {broken:?}, and with the rule kept {kept:?}"
            ));
        }
        counts.note_kind(name);
    }
    Ok(())
}
