//! The library beside the card and the ledger: every call is made of all three, and answers and buffers are compared.

use crate::counts::Counts;
use crate::dated::at_edges;
use crate::library::{bytes, entries, numbers, words, Entry, Lent, Library, Outcome, Shape};
use crate::pauses::is_paused_course;
use crate::summaries::settled;
use bitwise::blocks::to_words;
use bitwise::call::{call, Call, Kind, Limits, LARGEST};
use bitwise::card::{wing_of, Answer, Card};
use bitwise::ledger::Ledger;
use bitwise::summary::build;

/// How much of the card's bytes is compared after a call.
#[derive(Clone, Copy, PartialEq)]
pub enum Compared {
    All,
    /// The blocks of the sheet that was called for and one to each side, and another part of the card after every call:
    /// all of it in the course of 256 calls.
    Part,
}

/// What each word of a scratch has before.
const HELD: u64 = 0x5555_aaaa_0123_4567;

pub struct Beside {
    pub card: Card,
    ledger: Option<Ledger>,
    library: Library,
    margin: usize,
    compared: Compared,
    calls: usize,
}

fn shape_of(card: &Card) -> Shape {
    Shape {
        blocks: card.n as u32,
        free: card.free as u32,
    }
}

pub fn library_of(card: &Card, margin: usize) -> Library {
    Library {
        shape: shape_of(card),
        map: words(&to_words(&card.map), margin),
        catalogue: entries(&card.sheets, margin),
        card: bytes(&card.bytes, margin),
        summary: numbers(&card.summary, margin),
        limits: numbers(&LARGEST, margin),
        scratch: words(&[], margin),
    }
}

/// Says where two slices first differ.
fn same<T: PartialEq + std::fmt::Debug>(
    what: &str,
    library: &[T],
    model: &[T],
) -> Result<(), String> {
    if library == model {
        return Ok(());
    }
    let pairs = library.iter().zip(model);
    let at = pairs.take_while(|(ours, theirs)| ours == theirs).count();
    Err(format!(
        "{what} differs at {at}: {:?}, and by document 01 {:?}",
        library.get(at),
        model.get(at)
    ))
}

fn margins<T: Copy + PartialEq>(what: &str, lent: &Lent<T>) -> Result<(), String> {
    if lent.margins_whole() {
        return Ok(());
    }
    Err(format!("something beside the lent {what} was changed"))
}

/// A slice is as the model has it, and nothing beside it was changed.
pub fn same_slice<T: Copy + PartialEq + std::fmt::Debug>(
    what: &str,
    lent: &Lent<T>,
    model: &[T],
) -> Result<(), String> {
    same(what, lent.now(), model)?;
    margins(what, lent)
}

/// The outcome is the answer and the shape of the model.
pub fn same_outcome(outcome: Outcome, card: &Card, answer: Answer) -> Result<(), String> {
    let expected = Outcome::of(shape_of(card), answer);
    if outcome == expected {
        return Ok(());
    }
    Err(format!(
        "it gave {outcome:?}, and by document 01 {expected:?}"
    ))
}

/// Map and catalogue are as the model has them.
pub fn same_tables(library: &Library, card: &Card) -> Result<(), String> {
    same_slice("map", &library.map, &to_words(&card.map))?;
    let sheets: Vec<Entry> = card.sheets.iter().map(|&entry| entry.into()).collect();
    same_slice("catalogue", &library.catalogue, &sheets)
}

impl Beside {
    /// The library is lent copies of what the card has.
    pub fn new(card: Card, margin: usize, compared: Compared) -> Beside {
        Beside {
            library: library_of(&card, margin),
            card,
            ledger: None,
            margin,
            compared,
            calls: 0,
        }
    }

    /// A list of calls starts: an accepted fresh was the last call.
    pub fn start_ledger(&mut self) {
        self.ledger = Some(Ledger::fresh(self.card.n, self.card.sheets.len()));
    }

    /// Makes a call, compares, and counts the rows that held for it. On a card of full size only the first row is looked for.
    pub fn call(&mut self, call: Call, counts: &mut Counts) -> Result<(), String> {
        let mut lent = bytes(&call.slice(), self.margin);
        let scratch = if call.kind.has_scratch() {
            call.number
        } else {
            0
        };
        self.library.scratch = words(&vec![HELD; scratch as usize], self.margin);
        let outcome = self.library.call(call, &mut lent);
        let call = settled(&self.card, call, outcome)?;
        let held = match self.compared {
            Compared::All => self.card.held(call),
            Compared::Part => self.card.first(call).into_iter().collect(),
        };
        self.compare(call, outcome, &lent)?;
        counts.note(call.kind.name(), &held);
        Ok(())
    }

    /// A call that has been made of the library is made of card and ledger: with what it gave, and left of its slice.
    fn compare(&mut self, call: Call, outcome: Outcome, lent: &Lent<u8>) -> Result<(), String> {
        let before = call.slice();
        let mut after = before.clone();
        let answer = self.card_call(call, &mut after);
        same_outcome(outcome, &self.card, answer)?;
        self.library.shape = outcome.shape;
        same_slice("payload or buffer", lent, &after)?;
        same_tables(&self.library, &self.card)?;
        same_slice("summary", &self.library.summary, &self.card.summary)?;
        same_slice("limits", &self.library.limits, &call.limits)?;
        let zeros = vec![0; self.library.scratch.len()];
        same_slice("scratch", &self.library.scratch, &zeros)?;
        self.same_bytes(call)?;
        self.by_ledger(call, answer, before, &after)?;
        self.calls += 1;
        Ok(())
    }

    /// From here on another summary is lent.
    pub fn lend_summary(&mut self, summary: Vec<u32>) {
        self.library.summary = numbers(&summary, self.margin);
        self.card.summary = summary;
    }

    /// The summary is one built anew.
    pub fn summary_is_own(&self) -> Result<(), String> {
        let own = build(&self.card.map, self.card.n);
        same_slice("summary, built anew,", &self.library.summary, &own)
    }

    /// No wing holds more than its limit, by the lengths in the library's catalogue (document 02, (k)).
    pub fn wings_within(&self, limits: Limits) -> Result<(), String> {
        let mut held = [0; 8];
        for (sheet, entry) in (0..).zip(self.library.catalogue.now()) {
            held[wing_of(sheet) as usize] += entry.length as u64;
        }
        for (wing, (held, limit)) in held.into_iter().zip(limits).enumerate() {
            if held > limit as u64 {
                return Err(format!(
                    "wing {wing} holds {held} blocks, and its limit is {limit}"
                ));
            }
        }
        Ok(())
    }

    /// The call of the card. What a false summary leaves open in the summary is taken over from the library.
    fn card_call(&mut self, call: Call, slice: &mut [u8]) -> Answer {
        let exact = !call.kind.has_summary() || call.kind.builds_anew();
        if exact || self.card.has_own_summary() {
            return self.card.call(call, slice);
        }
        let map = self.card.map.clone();
        let answer = self.card.call(call, slice);
        self.card.take_open_groups(&map, self.library.summary.now());
        answer
    }

    fn same_bytes(&self, call: Call) -> Result<(), String> {
        // A closing can change every block.
        if self.compared == Compared::All || call.kind.has_scratch() {
            return same_slice("card", &self.library.card, &self.card.bytes);
        }
        margins("card", &self.library.card)?;
        let n = self.card.n;
        let part = n.div_ceil(256);
        let start = self.calls % 256 * part;
        self.same_blocks(start.min(n), (start + part).min(n))?;
        let Some(entry) = self.card.sheets.get(call.sheet as usize) else {
            return Ok(());
        };
        let (start, end) = (entry.start as usize, (entry.start + entry.length) as usize);
        self.same_blocks(start.saturating_sub(1), (end + 1).min(n))
    }

    /// The bytes of the blocks from start to end - 1.
    fn same_blocks(&self, start: usize, end: usize) -> Result<(), String> {
        let part = 512 * start..512 * end;
        let what = format!("card from block {start} on");
        same(
            &what,
            &self.library.card.now()[part.clone()],
            &self.card.bytes[part],
        )
    }

    // The ledger.

    /// The ledger's answer is the same; so are what it says of the buffer, the map, the catalogue, the shape, the sum, and
    /// the blocks of the sheet. `slice` is the payload or the buffer as it was before the call.
    fn by_ledger(
        &mut self,
        call: Call,
        answer: Answer,
        mut slice: Vec<u8>,
        after: &[u8],
    ) -> Result<(), String> {
        let Some(ledger) = &mut self.ledger else {
            return Ok(());
        };
        let Some(by_ledger) = ledger.call(call, &mut slice) else {
            return Ok(());
        };
        same("payload or buffer, by the ledger,", after, &slice)?;
        if answer != by_ledger {
            return Err(format!(
                "it answered {answer:?}, and by the ledger {by_ledger:?}"
            ));
        }
        self.as_in_ledger()?;
        if call.kind.has_scratch() {
            let mut sheets = 0..self.card.sheets.len();
            return sheets.try_for_each(|sheet| self.places_as_in_ledger(sheet, self.compared));
        }
        if (call.sheet as usize) < self.card.sheets.len() {
            self.places_as_in_ledger(call.sheet as usize, self.compared)?;
        }
        Ok(())
    }

    /// The map, the catalogue and the shape are the ledger's, and free + granted = blocks + returned.
    fn as_in_ledger(&self) -> Result<(), String> {
        let Some(ledger) = &self.ledger else {
            return Ok(());
        };
        let map = ledger.map();
        same(
            "map, by the ledger,",
            self.library.map.now(),
            &to_words(&map),
        )?;
        let catalogue = self.library.catalogue.now();
        let sheets: Vec<Entry> = (0..catalogue.len())
            .map(|sheet| ledger.entry(sheet).into())
            .collect();
        same("catalogue, by the ledger,", catalogue, &sheets)?;
        let free = map.iter().filter(|&&free| free).count();
        let shape = self.library.shape;
        if (shape.blocks as usize, shape.free as usize) != (self.card.n, free) {
            return Err(format!(
                "the shape is {shape:?}, and the ledger has {free} free blocks"
            ));
        }
        if free + ledger.granted != self.card.n + ledger.returned {
            return Err("free + granted is not blocks + returned".to_string());
        }
        Ok(())
    }

    /// The blocks of a sheet are what the ledger has in its places; where only a part is compared, of 8 places spread over
    /// the sheet.
    fn places_as_in_ledger(&self, sheet: usize, compared: Compared) -> Result<(), String> {
        let Some(ledger) = &self.ledger else {
            return Ok(());
        };
        let entry = ledger.entry(sheet);
        let (start, length) = (entry.start as usize, entry.length as usize);
        let step = if compared == Compared::All {
            1
        } else {
            length.div_ceil(8)
        };
        for place in (0..length).step_by(step.max(1)) {
            let at = 512 * (start + place);
            let block = &self.library.card.now()[at..at + 512];
            let what = format!("block of sheet {sheet}, place {place}, by the ledger,");
            same(&what, block, &ledger.block(sheet, place))?;
        }
        Ok(())
    }

    /// At the end of a list: every byte of the card, every place of every sheet by the ledger, and each place of each
    /// complete sheet shown, those that were paused after they are taken up again, some also at the edges of its term.
    pub fn finish(&mut self) -> Result<(), String> {
        same_slice("card", &self.library.card, &self.card.bytes)?;
        self.as_in_ledger()?;
        for sheet in 0..self.card.sheets.len() {
            self.places_as_in_ledger(sheet, Compared::All)?;
            self.take_up(sheet)?;
            self.show_all(sheet)?;
            at_edges(self, sheet, &mut Counts::default())?;
        }
        Ok(())
    }

    /// A course that is paused is not shown, and is taken up again.
    fn take_up(&mut self, sheet: usize) -> Result<(), String> {
        if is_paused_course(&self.card.sheets[sheet]) {
            let counts = &mut Counts::default();
            self.call(call(Kind::Show, sheet as u32, 0), counts)?;
            self.call(call(Kind::Resume, sheet as u32, 0), counts)?;
        }
        Ok(())
    }

    fn show_all(&mut self, sheet: usize) -> Result<(), String> {
        let Some(ledger) = &self.ledger else {
            return Ok(());
        };
        let entry = ledger.entry(sheet);
        if entry.mark != 0x43 {
            return Ok(());
        }
        for place in 0..entry.length {
            let mut buffer = bytes(&[0x3c; 496], self.margin);
            let outcome = self
                .library
                .call(call(Kind::Show, sheet as u32, place), &mut buffer);
            same_outcome(outcome, &self.card, Answer::Done)?;
            let block = ledger.block(sheet, place as usize);
            same_slice("shown payload", &buffer, &block[8..504])?;
        }
        Ok(())
    }
}
