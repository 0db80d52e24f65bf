//! Power cuts. A simulated dispenser makes random calls and keeps the rule for saving (docs/C.md, "Saving and power cuts").
//! After every call, within every call that writes blocks and within every save the power is cut: the last image is loaded,
//! and what the card shows is compared with what the ledger had when that image was saved.

use crate::beside::{Beside, Compared};
use crate::closing::close_of;
use crate::counts::Counts;
use crate::cut_lists::LISTS;
use crate::dispenser::{Dispenser, Rule, Seen, BLOCK, KEPT};
use crate::images::load;
use bitwise::blocks::scratch_words;
use bitwise::call::{call, Bytes, Call, Kind};
use bitwise::card::sealed;
use bitwise::image::{body_of, image_of};
use bitwise::ledger::Ledger;
use bitwise::random::Random;

fn takes_blocks(kind: Kind) -> bool {
    use Kind::*;
    [Reserve, ReservePlaced, Accept, Grow].contains(&kind.without_summary())
}

impl Dispenser {
    // The rule.

    /// What the rule asks for before a call.
    fn before(&mut self, call: Call, counts: &mut Counts) -> Result<(), String> {
        if self.closed && self.rule.closings {
            self.save(counts)?;
        }
        let kind = call.kind.without_summary();
        if self.released && self.rule.releases && takes_blocks(kind) {
            self.save(counts)?;
        }
        if kind == Kind::Close && self.rule.repairs {
            self.repair(counts)?;
        }
        Ok(())
    }

    /// The first place that is neither blank nor sound for its sheet.
    fn strange(&self) -> Option<(u32, u32)> {
        let card = &self.beside.card;
        let places = self.lost.iter().copied();
        let mut strange = places.filter(|(sheet, place)| {
            let at = BLOCK * (card.sheets[*sheet as usize].start + place) as usize;
            let block = &card.bytes[at..at + BLOCK];
            block.iter().any(|byte| *byte != 0) && block != sealed(*sheet, *place, &block[8..504])
        });
        strange.next()
    }

    fn repair(&mut self, counts: &mut Counts) -> Result<(), String> {
        while let Some((sheet, place)) = self.strange() {
            let is_open = self.ledger.entry(sheet as usize).mark == 0x4f;
            let seed = self.random().draw() as u32 | 4;
            let again = call(Kind::Put, sheet, place).with_bytes(Bytes {
                seed,
                length: 496,
                term: None,
            });
            let put_again = is_open && self.random().chance(3, 4);
            let repair = match put_again {
                true => again,
                false => call(Kind::Release, sheet, 0),
            };
            self.make(repair, counts)?;
        }
        Ok(())
    }

    // The list.

    /// A fresh card, which may also come as the image of one: "a load of another image than the last one saved".
    fn fresh(&mut self, counts: &mut Counts) -> Result<(), String> {
        let n = self.saved.ledger.block_count();
        if self.random().chance(1, 2) {
            self.make(call(Kind::Fresh, 0, n as u32), counts)?;
            return self.beside.call(call(Kind::SummaryBuild, 0, 0), counts);
        }
        let mut card = self.beside.card.clone();
        card.call(call(Kind::Fresh, 0, n as u32), &mut []);
        let image = image_of(&body_of(&card));
        load(&mut card, &image, scratch_words(n), self.margin, counts)?;
        self.beside = Beside::new(card, self.margin, Compared::All);
        self.beside.call(call(Kind::SummaryBuild, 0, 0), counts)?;
        self.ledger = Ledger::fresh(n, self.ledger.sheet_count());
        self.lost.clear();
        (self.released, self.closed) = (true, false);
        let bytes = self.beside.card.bytes.clone();
        self.cut_now(bytes, counts)
    }

    fn step(&mut self, counts: &mut Counts) -> Result<(), String> {
        match self.random().within(0, 400) {
            0 if !self.closed => return self.fresh(counts),
            1..=30 => return self.save(counts),
            _ => {}
        }
        let call = match self.random().within(0, 30) {
            0 => close_of(&self.beside.card),
            _ => self.generator.call(&self.beside.card),
        };
        self.before(call, counts)?;
        self.make(call, counts)
    }

    /// A list, up to the first wrong show where the rule is not kept.
    fn list(&mut self, length: usize, counts: &mut Counts) -> Result<(), String> {
        let n = self.ledger.block_count() as u32;
        self.beside.call(call(Kind::Fresh, 0, n), counts)?;
        self.beside.call(call(Kind::SummaryBuild, 0, 0), counts)?;
        self.save(counts)?;
        for _ in 0..length {
            if self.seen.wrong > 0 {
                break;
            }
            self.step(counts)?;
        }
        Ok(())
    }
}

fn run(rule: Rule, seed: u64, margin: usize, counts: &mut Counts) -> Result<Seen, String> {
    let mut random = Random::of(seed);
    let length = random.within(100, 500);
    let mut dispenser = Dispenser::new(rule, margin, random);
    dispenser.list(length, counts)?;
    Ok(dispenser.seen)
}

/// A list that keeps the rule, with all its cuts.
pub fn kept(seed: u64, margin: usize, counts: &mut Counts) -> Result<(), String> {
    let seen = run(KEPT, seed, margin, counts)?;
    counts.add_kind(CUTS, seen.cuts);
    counts.add_kind(PLACES, seen.places);
    Ok(())
}

/// The rule without one of its parts.
#[rustfmt::skip]
const BROKEN: [(&str, Rule); 3] = [
    ("no save behind a release", Rule { releases: false, ..KEPT }),
    ("no save behind a closing", Rule { closings: false, ..KEPT }),
    ("no repair before a closing", Rule { repairs: false, ..KEPT }),
];

const CUTS: &str = "cuts, with the rule kept";
const PLACES: &str = "places compared after them, each with a date and without";
const WRONG: &str = "another text is shown";
const FINISHED: &str = "an Open sheet stands Paused or Complete";

/// Lists that break a part of the rule, and what the cuts find then.
pub fn broken(seed: u64, margin: usize, counts: &mut Counts) -> Result<(), String> {
    for (part, rule) in BROKEN {
        let seen = run(rule, seed, margin, counts)?;
        counts.add_kind(&format!("{part}: cuts"), seen.cuts);
        counts.add_kind(&format!("{part}: {WRONG}"), seen.wrong);
        counts.add_kind(&format!("{part}: {FINISHED}"), seen.finished);
    }
    Ok(())
}

/// What was counted. Without a save behind a release both kinds of harm have to be found. Without one of the other parts of the
/// rule random lists find none: cut_lists.rs has a list that does, for the third.
pub fn report(counts: &Counts) -> Result<(), String> {
    let kinds = [
        CUTS,
        PLACES,
        "within a save",
        "gone on from",
        "gone on from, with a closing unsaved",
    ];
    let kinds = kinds.into_iter().chain(LISTS).map(str::to_string);
    let (part, _) = BROKEN[0];
    let found = ["cuts", WRONG, FINISHED].map(|what| format!("{part}: {what}"));
    counts.report_kinds(kinds.chain(found))?;
    for (part, _) in &BROKEN[1..] {
        for what in ["cuts", WRONG, FINISHED] {
            counts.print_kind(&format!("{part}: {what}"));
        }
    }
    Ok(())
}
