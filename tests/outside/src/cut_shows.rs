//! What stands on a card after a power cut, beside what the ledger had when the image was saved.

use crate::beside::library_of;
use crate::library::{bytes, words, Library};
use bitwise::blocks::scratch_words;
use bitwise::calendar::date;
use bitwise::call::{call, dated, Call, Kind};
use bitwise::card::{entry, Card};
use bitwise::ledger::Ledger;
use bitwise::roles::{CARER, SERVICE};
use std::collections::BTreeSet;

const PAYLOAD: usize = 496;

/// Places by their sheet and number.
pub type Places = BTreeSet<(u32, u32)>;

/// What was saved: the image, the ledger as it was then, and the places that did not show even then.
#[derive(Clone)]
pub struct Saved {
    pub image: Vec<u8>,
    pub ledger: Ledger,
    pub lost: Places,
}

/// The moment of a cut: the card's bytes, the sheets that were Open, and whether a closing is not saved.
pub struct Cut {
    pub bytes: Vec<u8>,
    pub open: Vec<u32>,
    pub closed: bool,
}

/// What is not as it should be after a cut.
#[derive(Default)]
pub struct Found {
    /// Places that were compared.
    pub places: u64,
    /// Another text was shown than the ledger had, or one that was never in it.
    pub wrong: Vec<String>,
    /// A place was refused with 4 though no closing was unsaved.
    pub refused: Vec<String>,
    /// A sheet that was Open stands Paused or Complete.
    pub finished: Vec<String>,
}

impl Found {
    pub fn nothing(&self) -> bool {
        self.wrong.is_empty() && self.refused.is_empty() && self.finished.is_empty()
    }

    pub fn text(&self) -> String {
        [&self.wrong[..], &self.refused, &self.finished]
            .concat()
            .join("\n    ")
    }
}

/// The library after a cut: memory that holds nothing of the card, and what load makes of the image.
fn loaded(saved: &Saved, cut: &Cut, margin: usize) -> Result<Library, String> {
    let n = cut.bytes.len() / 512;
    let nothing = Card {
        n: 0,
        free: 0,
        map: vec![true; 64 * n.div_ceil(64)],
        sheets: vec![entry(0, 0, 0); saved.ledger.sheet_count()],
        bytes: cut.bytes.clone(),
        summary: Vec::new(),
    };
    let mut library = library_of(&nothing, margin);
    let mut scratch = words(&vec![7; scratch_words(n)], margin);
    let outcome = library.load(SERVICE, &mut bytes(&saved.image, margin), &mut scratch);
    library.shape = outcome.shape;
    match outcome.number {
        0 => Ok(library),
        number => Err(format!("the last image was refused with {number}")),
    }
}

/// Loads the last image, and compares every sheet with what the ledger had when it was saved.
pub fn after_cut(saved: &Saved, cut: &Cut, margin: usize) -> Result<Found, String> {
    let mut library = loaded(saved, cut, margin)?;
    let mut found = Found::default();
    for sheet in 0..library.catalogue.len() as u32 {
        let stands = saved.ledger.entry(sheet as usize);
        if library.catalogue.now()[sheet as usize] != stands.into() {
            return Err(format!("sheet {sheet} is not what was saved"));
        }
        if cut.open.contains(&sheet) && [0x43, 0x50].contains(&stands.mark) {
            found.finished.push(format!(
                "sheet {sheet} was Open, and after the cut its mark is {:#x}",
                stands.mark
            ));
        }
    }
    for sheet in 0..library.catalogue.len() as u32 {
        compare_sheet(&mut library, saved, cut, sheet, &mut found)?;
    }
    Ok(found)
}

/// Every place of a Complete sheet is shown, with dates and without; a course that was paused is taken up again before.
fn compare_sheet(
    library: &mut Library,
    saved: &Saved,
    cut: &Cut,
    sheet: u32,
    found: &mut Found,
) -> Result<(), String> {
    let mut ledger = saved.ledger.clone();
    let stands = ledger.entry(sheet as usize);
    if stands.mark == 0x50 && stands.length > 0 {
        let resume = call(Kind::Resume, sheet, 0);
        ledger.call(resume, &mut []);
        library.call(resume, &mut bytes(&[], 0));
    }
    if ledger.entry(sheet as usize).mark != 0x43 {
        return Ok(());
    }
    let dates = [date(2026, 11, 18), date(2000, 1, 1), date(2099, 12, 31)];
    for place in 0..stands.length {
        let on = dates[place as usize % dates.len()];
        let lost = |place| cut.closed || saved.lost.contains(&(sheet, place));
        let show = call(Kind::Show, sheet, place);
        compare_show(library, &mut ledger, show, lost(place), found)?;
        let show = dated(sheet, place, on).by(CARER);
        let may_be_lost = lost(place) || lost(0);
        compare_show(library, &mut ledger, show, may_be_lost, found)?;
        found.places += 1;
    }
    Ok(())
}

fn compare_show(
    library: &mut Library,
    ledger: &mut Ledger,
    show: Call,
    may_be_lost: bool,
    found: &mut Found,
) -> Result<(), String> {
    let mut lent = bytes(&[0x3c; PAYLOAD], 0);
    let mut wanted = vec![0x3c; PAYLOAD];
    let number = library.call(show, &mut lent).number;
    let answer = ledger.call(show, &mut wanted).expect("a show is answered");
    let by_ledger = crate::library::Outcome::of(library.shape, answer).number;
    let about = format!("{show} was answered {number}, and by the ledger {by_ledger}");
    if number == 4 {
        if lent.now() != [0x3c; PAYLOAD] {
            return Err(format!("{about}: a refused show changed the buffer"));
        }
        if !may_be_lost {
            found.refused.push(about);
        }
    } else if number != by_ledger || lent.now() != wanted {
        found.wrong.push(about);
    }
    Ok(())
}
