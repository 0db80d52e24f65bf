//! The ledger of document 01 ("The ledger, call by call"): it is fed n, c and each call's arguments, and reads nothing that
//! the program keeps or answers. Rows 1 and 4 hold for no call of a list, so they are not here.

use crate::blocks::{all, least_fit, plain, words_of, Figures, FREE, TAKEN};
use crate::calendar::{day_of, term_of, within, Date};
use crate::call::{Call, Kind, Limits, LARGEST};
use crate::card::Answer::*;
use crate::card::{entry, sealed, wing_of, Answer, Entry};
use crate::roles::may;

type Payload = Vec<u8>;

/// A finished course: place p is block start + p.
#[derive(Clone)]
pub struct Course {
    start: usize,
    payloads: Vec<Payload>,
}

/// A sheet. Place p of an open one is block start + p. A finished course that is paused keeps its payloads and covers its
/// blocks (document 02, (g)).
#[derive(Clone)]
pub enum Sheet {
    Absent,
    Paused(Option<Course>),
    Open {
        start: usize,
        places: Vec<Option<Payload>>,
    },
    Complete(Course),
}

#[derive(Clone)]
pub struct Ledger {
    n: usize,
    sheets: Vec<Sheet>,
    /// Those that go with the call at hand.
    limits: Limits,
    /// Blocks granted and returned by the accepted calls.
    pub granted: usize,
    pub returned: usize,
}

impl Ledger {
    /// What an accepted fresh leaves.
    pub fn fresh(n: usize, c: usize) -> Ledger {
        Ledger {
            n,
            sheets: vec![Sheet::Absent; c],
            limits: LARGEST,
            granted: 0,
            returned: 0,
        }
    }

    // What the ledger says of a card.

    pub fn block_count(&self) -> usize {
        self.n
    }

    pub fn sheet_count(&self) -> usize {
        self.sheets.len()
    }

    /// The blocks that a sheet covers, as a start and a number of places.
    fn extent(&self, sheet: usize) -> (usize, usize) {
        match &self.sheets[sheet] {
            Sheet::Absent | Sheet::Paused(None) => (0, 0),
            Sheet::Open { start, places } => (*start, places.len()),
            Sheet::Complete(course) | Sheet::Paused(Some(course)) => {
                (course.start, course.payloads.len())
            }
        }
    }

    /// The map: of the first n blocks those are free that no sheet covers, and none from n on. A block that two sheets cover
    /// would break the second condition of the certificate.
    pub fn map(&self) -> Vec<bool> {
        let mut map: Vec<bool> = (0..64 * words_of(self.n)).map(|b| b < self.n).collect();
        for sheet in 0..self.sheets.len() {
            let (start, length) = self.extent(sheet);
            for block in &mut map[start..start + length] {
                assert!(*block == FREE, "the ledger covers a block twice");
                *block = TAKEN;
            }
        }
        map
    }

    /// The first block from a start on that a sheet covers, or n.
    fn next_covered(&self, start: usize) -> usize {
        let extents = (0..self.sheets.len()).map(|sheet| self.extent(sheet));
        let covered = extents.filter(|(first, places)| *places > 0 && *first >= start);
        covered.map(|(first, _)| first).min().unwrap_or(self.n)
    }

    pub fn free_count(&self) -> usize {
        self.map().iter().filter(|&&block| block == FREE).count()
    }

    /// Mark, start and number of places, 0 and 0 for a sheet without places.
    pub fn entry(&self, sheet: usize) -> Entry {
        let mark = match self.sheets[sheet] {
            Sheet::Absent => 0x41,
            Sheet::Paused(_) => 0x50,
            Sheet::Open { .. } => 0x4f,
            Sheet::Complete(_) => 0x43,
        };
        let (start, length) = self.extent(sheet);
        entry(mark, start as u32, length as u32)
    }

    /// The payload of a place, unless it is blank.
    pub fn payload(&self, sheet: usize, place: usize) -> Option<&Payload> {
        match &self.sheets[sheet] {
            Sheet::Absent | Sheet::Paused(None) => None,
            Sheet::Open { places, .. } => places[place].as_ref(),
            Sheet::Complete(course) | Sheet::Paused(Some(course)) => Some(&course.payloads[place]),
        }
    }

    /// What the card has at a place: 512 zeros where it is blank, else the sealed block.
    pub fn block(&self, sheet: usize, place: usize) -> Vec<u8> {
        match self.payload(sheet, place) {
            None => vec![0; 512],
            Some(payload) => sealed(sheet as u32, place as u32, payload),
        }
    }

    /// What the ledger has to be after a power cut, in which the image is loaded that was saved when it was `saved`. What an
    /// Open sheet of that image holds is what `place` says of each of its places: nobody else knows what was written since.
    pub fn cut(saved: &Ledger, place: impl Fn(usize, usize) -> Option<Payload>) -> Ledger {
        let mut ledger = saved.clone();
        for (sheet, stands) in ledger.sheets.iter_mut().enumerate() {
            if let Sheet::Open { places, .. } = stands {
                *places = (0..places.len()).map(|p| place(sheet, p)).collect();
            }
        }
        ledger
    }

    // The calls: the rows that hold for them in their order, then the change.

    /// What the ledger answers to a call of a list, and leaves in its payload or buffer. Fresh, search and survey are none, nor
    /// are the build and the check of a summary. With a true summary a form is answered as the call without it. "A call turned
    /// away by role counts among the refused ones" (document 02, (n)), whichever it is, and changes nothing.
    pub fn call(&mut self, call: Call, slice: &mut [u8]) -> Option<Answer> {
        if !may(call.role, call.kind.name()) {
            return Some(Refused(21));
        }
        let (sheet, number) = (call.sheet, call.number);
        self.limits = call.limits;
        let answer = match call.kind.without_summary() {
            Kind::Fresh | Kind::Search | Kind::Survey => return None,
            Kind::SummaryBuild | Kind::SummaryCheck => return None,
            Kind::Reserve => self.reserve(sheet, number as usize, plain(self.n)),
            Kind::ReservePlaced => self.reserve(sheet, number as usize, call.figures),
            Kind::Offer => self.offer(sheet, number as usize),
            Kind::Accept => self.accept(sheet, call.start as usize, number as usize),
            Kind::Put => self.put(sheet, number, slice),
            Kind::Grow => self.grow(sheet, number as usize),
            Kind::Complete => self.complete(sheet),
            Kind::Pause => self.pause(sheet),
            Kind::Resume => self.resume(sheet),
            Kind::Release => self.release(sheet),
            Kind::Close => self.close(),
            Kind::Show => self.show(sheet, number, None, slice),
            Kind::ShowDated => self.show(sheet, number, Some(call.date), slice),
            Kind::Standing => self.standing(sheet),
            form => unreachable!("{form:?} is answered as the call without the summary"),
        };
        Some(answer.unwrap_or_else(|refusal| refusal))
    }

    fn sheet(&mut self, sheet: u32) -> Result<&mut Sheet, Answer> {
        self.sheets.get_mut(sheet as usize).ok_or(Refused(2))
    }

    fn absent(&mut self, sheet: u32) -> Result<&mut Sheet, Answer> {
        let sheet = self.sheet(sheet)?;
        match sheet {
            Sheet::Absent => Ok(sheet),
            Sheet::Paused(_) => Err(Refused(6)),
            Sheet::Open { .. } => Err(Refused(7)),
            Sheet::Complete(_) => Err(Refused(8)),
        }
    }

    fn open(&mut self, sheet: u32) -> Result<(usize, &mut Vec<Option<Payload>>), Answer> {
        match self.sheet(sheet)? {
            Sheet::Absent => Err(Refused(5)),
            Sheet::Paused(_) => Err(Refused(6)),
            Sheet::Open { start, places } => Ok((*start, places)),
            Sheet::Complete(_) => Err(Refused(8)),
        }
    }

    /// The places of all sheets of a wing.
    pub fn held_by_wing(&self, wing: u32) -> usize {
        let sheets = (0..self.sheets.len()).filter(|sheet| wing_of(*sheet as u32) == wing);
        sheets.map(|sheet| self.extent(sheet).1).sum()
    }

    /// The wing of a sheet may hold k places more (document 02, (k)).
    fn within_limit(&self, sheet: u32, k: usize) -> Result<(), Answer> {
        let wing = wing_of(sheet);
        if self.held_by_wing(wing) + k > self.limits[wing as usize] as usize {
            return Err(Refused(18));
        }
        Ok(())
    }

    /// Where a reserve with figures would put a sheet of k places.
    fn fit(&mut self, sheet: u32, k: usize, figures: Figures) -> Result<usize, Answer> {
        self.absent(sheet)?;
        if k == 0 {
            return Err(Refused(3));
        }
        let Figures { from, before, step } = figures;
        if step == 0 || from >= before || before as usize > self.n {
            return Err(Refused(15));
        }
        self.within_limit(sheet, k)?;
        least_fit(&self.map()[..self.n], figures, k).ok_or(Refused(10))
    }

    /// An Absent sheet becomes Open with k blank places from a start on, which no sheet covers. The space behind the start ends
    /// where the next sheet begins.
    fn place(&mut self, sheet: u32, start: usize, k: usize) -> Result<Answer, Answer> {
        let space = self.next_covered(start) - start;
        let places = vec![None; k];
        *self.absent(sheet)? = Sheet::Open { start, places };
        self.granted += k;
        Ok(Start(start, space))
    }

    /// A reserve with figures: the plain one is the one with 0, n and 1.
    fn reserve(&mut self, sheet: u32, k: usize, figures: Figures) -> Result<Answer, Answer> {
        let start = self.fit(sheet, k, figures)?;
        self.place(sheet, start, k)
    }

    /// What a plain reserve would get, and the length. Nothing changes (document 02, (f)).
    fn offer(&mut self, sheet: u32, k: usize) -> Result<Answer, Answer> {
        let start = self.fit(sheet, k, plain(self.n))?;
        Ok(Offered(start, k))
    }

    /// A reserve at a start, which need not be the lowest fit (document 02, (f)).
    fn accept(&mut self, sheet: u32, start: usize, k: usize) -> Result<Answer, Answer> {
        self.absent(sheet)?;
        if k == 0 {
            return Err(Refused(3));
        }
        self.within_limit(sheet, k)?;
        if start + k > self.n || !all(&self.map(), start, start + k, FREE) {
            return Err(Refused(17));
        }
        self.place(sheet, start, k)
    }

    fn put(&mut self, sheet: u32, place: u32, payload: &[u8]) -> Result<Answer, Answer> {
        let (_, places) = self.open(sheet)?;
        if place as usize >= places.len() || payload.len() != 496 {
            return Err(Refused(3));
        }
        places[place as usize] = Some(payload.to_vec());
        Ok(Done)
    }

    fn grow(&mut self, sheet: u32, m: usize) -> Result<Answer, Answer> {
        let (start, places) = self.open(sheet)?;
        let end = start + places.len();
        if m == 0 {
            return Err(Refused(3));
        }
        self.within_limit(sheet, m)?;
        if end + m > self.n || !all(&self.map(), end, end + m, FREE) {
            return Err(Refused(11));
        }
        let (_, places) = self.open(sheet)?;
        places.resize(places.len() + m, None);
        self.granted += m;
        Ok(Done)
    }

    /// The place with 9 is the lowest blank one (document 02 (d)).
    fn complete(&mut self, sheet: u32) -> Result<Answer, Answer> {
        let (start, places) = self.open(sheet)?;
        if let Some(place) = places.iter().position(|place| place.is_none()) {
            return Err(Blank(place));
        }
        let payloads = places.iter().flatten().cloned().collect();
        *self.sheet(sheet)? = Sheet::Complete(Course { start, payloads });
        Ok(Done)
    }

    /// An Absent sheet is paused without blocks, a finished course with its blocks and payloads.
    fn pause(&mut self, sheet: u32) -> Result<Answer, Answer> {
        let sheet = self.sheet(sheet)?;
        let course = match sheet {
            Sheet::Absent => None,
            Sheet::Complete(course) => Some(course.clone()),
            Sheet::Paused(_) => return Err(Refused(6)),
            Sheet::Open { .. } => return Err(Refused(7)),
        };
        *sheet = Sheet::Paused(course);
        Ok(Done)
    }

    /// A course that was paused is taken up again; a pause without blocks is none.
    fn resume(&mut self, sheet: u32) -> Result<Answer, Answer> {
        let sheet = self.sheet(sheet)?;
        let course = match sheet {
            Sheet::Paused(Some(course)) => course.clone(),
            Sheet::Absent => return Err(Refused(5)),
            Sheet::Paused(None) => return Err(Refused(6)),
            Sheet::Open { .. } => return Err(Refused(7)),
            Sheet::Complete(_) => return Err(Refused(8)),
        };
        *sheet = Sheet::Complete(course);
        Ok(Done)
    }

    fn release(&mut self, sheet: u32) -> Result<Answer, Answer> {
        if let Sheet::Absent = self.sheet(sheet)? {
            return Err(Refused(5));
        }
        self.returned += self.extent(sheet as usize).1;
        *self.sheet(sheet)? = Sheet::Absent;
        Ok(Done)
    }

    /// Every sheet with places, Open, Complete and Paused alike, starts where the one before it ends, in order of their
    /// starts, and the first at block 0 (document 02, (l)).
    fn close(&mut self) -> Result<Answer, Answer> {
        let mut sheets: Vec<usize> = (0..self.sheets.len()).collect();
        sheets.retain(|sheet| self.extent(*sheet).1 > 0);
        sheets.sort_by_key(|sheet| self.extent(*sheet).0);
        let mut next = 0;
        for sheet in sheets {
            let (_, places) = self.extent(sheet);
            match &mut self.sheets[sheet] {
                Sheet::Open { start, .. } => *start = next,
                Sheet::Complete(course) | Sheet::Paused(Some(course)) => course.start = next,
                Sheet::Absent | Sheet::Paused(None) => {}
            }
            next += places;
        }
        Ok(Done)
    }

    /// A dated show reads the term from its own payload of place 0 (document 02, (m)).
    fn show(
        &mut self,
        sheet: u32,
        place: u32,
        date: Option<Date>,
        buffer: &mut [u8],
    ) -> Result<Answer, Answer> {
        match self.sheet(sheet)? {
            Sheet::Absent => Err(Refused(5)),
            Sheet::Paused(_) => Err(Refused(6)),
            Sheet::Open { .. } => Err(Refused(7)),
            Sheet::Complete(Course { payloads, .. }) => {
                if place as usize >= payloads.len() || buffer.len() != 496 {
                    return Err(Refused(3));
                }
                if let Some(date) = date {
                    let day = day_of(date).ok_or(Refused(19))?;
                    if !within(term_of(&payloads[0]), day) {
                        return Err(Refused(20));
                    }
                }
                buffer.copy_from_slice(&payloads[place as usize]);
                Ok(Done)
            }
        }
    }

    fn standing(&mut self, sheet: u32) -> Result<Answer, Answer> {
        self.sheet(sheet)?;
        Ok(Stands(self.entry(sheet as usize)))
    }
}

#[cfg(test)]
mod role_tests;
#[cfg(test)]
mod tests;
