//! A simulated dispenser: it makes calls, saves, and has its power cut, beside the card and the ledger worked out bit by bit.
//! Most cuts are only tried: from some the list goes on.

use crate::beside::{Beside, Compared};
use crate::counts::Counts;
use crate::cut_saves::Storage;
use crate::cut_shows::{after_cut, Cut, Found, Places, Saved};
use crate::generate::Generator;
use crate::images::{load, save};
use bitwise::blocks::scratch_words;
use bitwise::call::{call, Call, Kind};
use bitwise::card::{entry, sealed, Answer, Card};
use bitwise::image::blocks_of;
use bitwise::ledger::Ledger;
use bitwise::random::Random;

pub const BLOCK: usize = 512;

/// Which parts of the rule the dispenser keeps.
#[derive(Clone, Copy, PartialEq)]
pub struct Rule {
    /// After a release, a fresh, or a load of another image: save before a call takes blocks.
    pub releases: bool,
    /// After a closing: save before anything else.
    pub closings: bool,
    /// After a cut, before the next closing: places that are neither blank nor sound are put again, or their sheet is released.
    pub repairs: bool,
}

pub const KEPT: Rule = Rule {
    releases: true,
    closings: true,
    repairs: true,
};

/// What came of a list.
#[derive(Default)]
pub struct Seen {
    pub cuts: u64,
    pub places: u64,
    pub wrong: u64,
    pub refused: u64,
    pub finished: u64,
}

pub struct Dispenser {
    pub beside: Beside,
    pub ledger: Ledger,
    /// Places that do not show, or cannot be completed: a closing or a write was cut.
    pub lost: Places,
    storage: Storage,
    pub saved: Saved,
    /// What the rule goes by: a release or the like, or a closing, is not saved.
    pub released: bool,
    pub closed: bool,
    pub rule: Rule,
    with_summary: bool,
    pub generator: Generator,
    pub margin: usize,
    pub seen: Seen,
}

/// The card's bytes where the power goes within a call: some of the blocks that it was to write have their new bytes, and one
/// of them is torn at some byte, with the new part before or behind it.
fn half_written(before: &[u8], after: &[u8], random: &mut Random) -> Option<Vec<u8>> {
    let blocks = (0..before.len()).step_by(BLOCK);
    let written: Vec<usize> = blocks
        .filter(|at| before[*at..at + BLOCK] != after[*at..at + BLOCK])
        .collect();
    let torn = *written.get(random.within(0, written.len().max(1)))?;
    let mut bytes = before.to_vec();
    for at in written {
        if random.chance(1, 2) {
            bytes[at..at + BLOCK].copy_from_slice(&after[at..at + BLOCK]);
        }
    }
    let at = random.within(0, BLOCK + 1);
    let (new, old) = match random.chance(3, 4) {
        true => (torn..torn + at, torn + at..torn + BLOCK),
        false => (torn + at..torn + BLOCK, torn..torn + at),
    };
    bytes[new.clone()].copy_from_slice(&after[new]);
    bytes[old.clone()].copy_from_slice(&before[old]);
    Some(bytes)
}

impl Dispenser {
    pub fn new(rule: Rule, margin: usize, mut random: Random) -> Dispenser {
        let (n, c) = match random.chance(1, 2) {
            true => (random.within(3, 7), random.within(2, 4)),
            false => (random.within(3, 30), random.within(2, 7)),
        };
        let card = crate::lists::used_card(n, c, &mut random);
        Dispenser {
            beside: Beside::new(card, margin, Compared::All),
            ledger: Ledger::fresh(n, c),
            lost: Places::new(),
            storage: Storage::default(),
            saved: Saved {
                image: Vec::new(),
                ledger: Ledger::fresh(n, c),
                lost: Places::new(),
            },
            released: true,
            closed: false,
            rule,
            with_summary: random.chance(1, 2),
            generator: Generator::new(random),
            margin,
            seen: Seen::default(),
        }
    }

    pub fn random(&mut self) -> &mut Random {
        &mut self.generator.random
    }

    fn open_sheets(&self) -> Vec<u32> {
        let sheets = 0..self.ledger.sheet_count();
        let open = sheets.filter(|sheet| self.ledger.entry(*sheet).mark == 0x4f);
        open.map(|sheet| sheet as u32).collect()
    }

    // What is made of the library.

    /// A call beside the card and the ledger, with cuts within it and behind it.
    pub fn make(&mut self, call: Call, counts: &mut Counts) -> Result<(), String> {
        let call = match self.with_summary {
            true => call.with_summary(),
            false => call,
        };
        let accepted = self.beside.card.first(call).is_none();
        let before = self.beside.card.bytes.clone();
        let open = self.open_sheets();
        self.beside.call(call, counts)?;
        self.by_ledger(call, accepted)?;
        let kind = call.kind.without_summary();
        let closes = accepted && kind == Kind::Close;
        self.cut_within(&before, open, self.closed || closes, counts)?;
        self.released |= accepted && [Kind::Release, Kind::Fresh].contains(&kind);
        self.closed |= closes;
        let bytes = self.beside.card.bytes.clone();
        self.cut_now(bytes, counts)
    }

    /// The ledger makes the call too. What is lost, it does not know of: there the library may refuse with 4.
    fn by_ledger(&mut self, call: Call, accepted: bool) -> Result<(), String> {
        let kind = call.kind.without_summary();
        if accepted && kind == Kind::Fresh {
            self.ledger = Ledger::fresh(self.beside.card.n, self.ledger.sheet_count());
            self.lost.clear();
        }
        let mut lost = self.lost.iter();
        if !accepted && lost.any(|(sheet, _)| *sheet == call.sheet) {
            return Ok(());
        }
        let mut slice = call.slice();
        if let Some(answer) = self.ledger.call(call, &mut slice) {
            let refused = matches!(answer, Answer::Refused(_) | Answer::Blank(_));
            if refused == accepted {
                return Err(format!("{call}: by the ledger {answer:?}"));
            }
        }
        if accepted && kind == Kind::Release {
            self.lost.retain(|(sheet, _)| *sheet != call.sheet);
        }
        if accepted && kind == Kind::Put {
            self.lost.remove(&(call.sheet, call.number));
        }
        let sheets = self.beside.card.sheets.iter().enumerate();
        for (sheet, stands) in sheets {
            if *stands != self.ledger.entry(sheet) {
                return Err(format!("{call}: the ledger has another sheet {sheet}"));
            }
        }
        Ok(())
    }

    /// A save, with cuts within it.
    pub fn save(&mut self, counts: &mut Counts) -> Result<(), String> {
        let card = &self.beside.card;
        let (n, c) = (card.n, card.sheets.len());
        let length = BLOCK * blocks_of(n, c);
        let (answer, image) = save(card, scratch_words(n), length, self.margin, counts)?;
        if answer != Answer::Done {
            return Err("the state could not be saved".to_string());
        }
        for _ in 0..2 {
            self.cut_in_save(&image, counts)?;
        }
        self.storage.save(&image);
        self.saved = Saved {
            image,
            ledger: self.ledger.clone(),
            lost: self.lost.clone(),
        };
        (self.released, self.closed) = (false, false);
        let bytes = self.beside.card.bytes.clone();
        self.cut_now(bytes, counts)
    }

    // Cuts.

    /// A cut that is tried: nothing of the dispenser changes.
    fn try_cut(&mut self, cut: &Cut, saved: &Saved) -> Result<Found, String> {
        let found = after_cut(saved, cut, self.margin)?;
        self.seen.cuts += 1;
        self.seen.places += found.places;
        self.seen.wrong += found.wrong.len() as u64;
        self.seen.refused += found.refused.len() as u64;
        self.seen.finished += found.finished.len() as u64;
        match self.rule == KEPT && !found.nothing() {
            true => Err(found.text()),
            false => Ok(found),
        }
    }

    /// Cuts within a call that writes blocks.
    fn cut_within(
        &mut self,
        before: &[u8],
        open: Vec<u32>,
        closed: bool,
        counts: &mut Counts,
    ) -> Result<(), String> {
        for _ in 0..3 {
            let after = self.beside.card.bytes.clone();
            let Some(bytes) = half_written(before, &after, self.random()) else {
                return Ok(());
            };
            let cut = Cut {
                bytes,
                open: open.clone(),
                closed,
            };
            let saved = self.saved.clone();
            let found = self.try_cut(&cut, &saved)?;
            if found.wrong.is_empty() && self.random().chance(1, 200) {
                return self.go_on_from(cut, counts);
            }
        }
        Ok(())
    }

    /// A cut behind a call or a save.
    pub fn cut_now(&mut self, bytes: Vec<u8>, counts: &mut Counts) -> Result<(), String> {
        let cut = Cut {
            bytes,
            open: self.open_sheets(),
            closed: self.closed,
        };
        let saved = self.saved.clone();
        let found = self.try_cut(&cut, &saved)?;
        let often = if self.closed { 4 } else { 150 };
        if found.wrong.is_empty() && self.random().chance(1, often) {
            self.go_on_from(cut, counts)?;
        }
        Ok(())
    }

    /// A cut within a save: the image that is loaded is the one before, or the new one.
    fn cut_in_save(&mut self, image: &[u8], counts: &mut Counts) -> Result<(), String> {
        let half = self.storage.clone().save_cut(image, self.random());
        let saved = match half.image() {
            Some(other) if other == image => Saved {
                image: image.to_vec(),
                ledger: self.ledger.clone(),
                lost: self.lost.clone(),
            },
            Some(other) if other == self.saved.image => self.saved.clone(),
            None if self.saved.image.is_empty() => return Ok(()),
            _ => return Err("a save that was cut left another image".to_string()),
        };
        let cut = Cut {
            bytes: self.beside.card.bytes.clone(),
            open: self.open_sheets(),
            closed: self.closed,
        };
        counts.note_kind("within a save");
        self.try_cut(&cut, &saved).map(drop)
    }

    /// The power is cut, the last image is loaded, and the list goes on from there.
    fn go_on_from(&mut self, cut: Cut, counts: &mut Counts) -> Result<(), String> {
        let mut card = self.beside.card.clone();
        card.bytes = cut.bytes;
        card.sheets.fill(entry(0, 0, 0));
        card.map.fill(true);
        let image = self.saved.image.clone();
        let scratch = scratch_words(card.n);
        load(&mut card, &image, scratch, self.margin, counts)?;
        self.look_at(&card);
        counts.note_kind(match cut.closed {
            true => "gone on from, with a closing unsaved",
            false => "gone on from",
        });
        self.beside = Beside::new(card, self.margin, Compared::All);
        (self.released, self.closed) = (false, false);
        self.beside.call(call(Kind::SummaryBuild, 0, 0), counts)
    }

    /// What the loaded state holds: places that are not as the ledger had them are lost, and an Open sheet has what the card
    /// has.
    fn look_at(&mut self, card: &Card) {
        let saved = &mut self.saved;
        let block = |sheet: usize, place: usize| {
            let at = BLOCK * (card.sheets[sheet].start as usize + place);
            &card.bytes[at..at + BLOCK]
        };
        for (sheet, stands) in card.sheets.iter().enumerate() {
            for place in 0..stands.length {
                let now = block(sheet, place as usize);
                let is_open = stands.mark == 0x4f;
                let is_blank = now.iter().all(|byte| *byte == 0);
                let sound = now == sealed(sheet as u32, place, &now[8..504]);
                let whole = match is_open {
                    true => is_blank || sound,
                    false => now == saved.ledger.block(sheet, place as usize),
                };
                match whole {
                    true => saved.lost.remove(&(sheet as u32, place)),
                    false => saved.lost.insert((sheet as u32, place)),
                };
            }
        }
        let payload = |sheet: usize, place: usize| {
            let now = block(sheet, place);
            let sound = now == sealed(sheet as u32, place as u32, &now[8..504]);
            sound.then(|| now[8..504].to_vec())
        };
        saved.ledger = Ledger::cut(&saved.ledger, payload);
        self.ledger = saved.ledger.clone();
        self.lost = saved.lost.clone();
    }
}
