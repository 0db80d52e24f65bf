//! The saved image (document 01, "Saved image"), written out byte by byte.

use crate::blocks::{from_words, scratch_words, to_words, words_of, FREE};
use crate::call::{LOAD, SAVE};
use crate::card::Answer::*;
use crate::card::{entry, sums, Answer, Card};
use crate::roles::may;
use crate::rows::Row;

const BLOCK: usize = 512;
const BODY: usize = 496;
const MOST: usize = 91;

/// How many image blocks n blocks and c sheets take.
pub fn blocks_of(n: usize, c: usize) -> usize {
    (12 + 12 * c + 8 * words_of(n)).div_ceil(BODY)
}

/// The image body: n, free count, c, the entries, the words, then zeros to a whole number of 496 bytes. It is written
/// down whether the state is sound or not.
pub fn body_of(card: &Card) -> Vec<u8> {
    let mut body = Vec::new();
    for number in [card.n, card.free, card.sheets.len()] {
        body.extend((number as u32).to_be_bytes());
    }
    for entry in &card.sheets {
        for number in [entry.mark, entry.start, entry.length] {
            body.extend(number.to_be_bytes());
        }
    }
    for word in to_words(&card.map) {
        body.extend(word.to_be_bytes());
    }
    while body.len() % BODY != 0 {
        body.push(0);
    }
    body
}

/// An image block: its number, the number of image blocks, 496 bytes of the body, A and B.
pub fn framed(number: usize, total: usize, part: &[u8]) -> Vec<u8> {
    let mut frame = Vec::new();
    frame.extend((number as u32).to_be_bytes());
    frame.extend((total as u32).to_be_bytes());
    frame.extend(part);
    let (a, b) = sums(&frame);
    frame.extend(a.to_be_bytes());
    frame.extend(b.to_be_bytes());
    frame
}

/// The image with a body of whole parts.
pub fn image_of(body: &[u8]) -> Vec<u8> {
    let total = body.len() / BODY;
    (0..total)
        .flat_map(|number| framed(number, total, &body[BODY * number..BODY * (number + 1)]))
        .collect()
}

/// A number of 4 bytes, the high byte first.
fn number_at(bytes: &[u8], at: usize) -> usize {
    bytes[at..at + 4]
        .iter()
        .fold(0, |number, &byte| 256 * number + byte as usize)
}

/// A word of 8 bytes, the high byte first.
fn word_at(bytes: &[u8], at: usize) -> u64 {
    bytes[at..at + 8]
        .iter()
        .fold(0, |word, &byte| 256 * word + byte as u64)
}

/// The rows of save and load. Each is worked out from what is lent and from the whole blocks that an image has, whatever the
/// rows before it say.
impl Card {
    /// No entry is damaged, extents are disjoint, a block is free exactly when uncovered, bits from n on are 0, and the
    /// free count is the number of free blocks.
    pub(crate) fn sound(&self) -> bool {
        if self.sheets.iter().any(|entry| self.damaged(*entry)) {
            return false;
        }
        let n = self.n.min(self.map.len());
        let mut holders = vec![0; n];
        for entry in &self.sheets {
            let (start, length) = (entry.start as usize, entry.length as usize);
            for block in holders.iter_mut().skip(start).take(length) {
                *block += 1;
            }
        }
        let disjoint = holders.iter().all(|&count| count < 2);
        let free_if_uncovered = (0..n).all(|b| (self.map[b] == FREE) == (holders[b] == 0));
        let none_from_n_on = self.map[n..].iter().all(|&block| block != FREE);
        let count = self.map.iter().filter(|&&block| block == FREE).count();
        disjoint && free_if_uncovered && none_from_n_on && count == self.free
    }

    fn save_holds(&self, role: u32, row: Row, scratch: usize, length: usize) -> bool {
        match row {
            Row::Role => !may(role, SAVE.0),
            Row::Blocks => !(1..=262144).contains(&self.n),
            Row::Sheets => !(1..=1024).contains(&self.sheets.len()),
            Row::FreeAboveN => self.free > self.n,
            Row::MapLength => self.map.len() != 64 * words_of(self.n),
            Row::ScratchLength => scratch != scratch_words(self.n),
            Row::SavedState => !self.sound(),
            Row::ImageLength => length != BLOCK * blocks_of(self.n, self.sheets.len()),
            other => unreachable!("{other:?} is no row of save"),
        }
    }

    fn load_holds(&self, role: u32, row: Row, image: &Image, scratch: usize) -> bool {
        let frames = |wrong: fn(&Image, usize) -> bool| (0..image.total()).any(|b| wrong(image, b));
        match row {
            Row::Role => !may(role, LOAD.0),
            Row::ImageLength => {
                !image.bytes.len().is_multiple_of(BLOCK) || !(1..=MOST).contains(&image.total())
            }
            Row::FrameNumber => frames(|image, b| number_at(image.block(b), 0) != b),
            Row::FrameTotal => frames(|image, b| number_at(image.block(b), 4) != image.total()),
            Row::FrameCheck => frames(|image, b| !image.check_holds(b)),
            // An image without a whole block has no head.
            _ if image.total() == 0 => false,
            Row::HeadLimits => !image.within_limits(),
            Row::HeadTotal => image.total() != blocks_of(image.n(), image.c()),
            Row::MapLength => self.map.len() != 64 * words_of(image.n()),
            Row::CatalogueLength => self.sheets.len() != image.c(),
            Row::ScratchLength => scratch != scratch_words(image.n()),
            Row::LoadedState => image.state().is_some_and(|state| !state.sound()),
            Row::Fill => image.fill().iter().any(|&byte| byte != 0),
            other => unreachable!("{other:?} is no row of load"),
        }
    }

    /// All rows that hold for a save to an image of a length, in their order.
    pub fn held_by_save(&self, role: u32, scratch: usize, length: usize) -> Vec<Row> {
        let rows = SAVE.1.iter().copied();
        rows.filter(|row| self.save_holds(role, *row, scratch, length))
            .collect()
    }

    /// The same for a load.
    pub fn held_by_load(&self, role: u32, image: &[u8], scratch: usize) -> Vec<Row> {
        let (image, rows) = (&Image::of(image), LOAD.1.iter().copied());
        rows.filter(|row| self.load_holds(role, *row, image, scratch))
            .collect()
    }

    /// Save. The scratch is all zeros afterwards, whatever the answer, 21 too.
    pub fn save(&self, role: u32, scratch: &mut [u64], image: &mut [u8]) -> Answer {
        scratch.fill(0);
        let mut rows = SAVE.1.iter();
        let holds = |row: &&Row| self.save_holds(role, **row, scratch.len(), image.len());
        if let Some(row) = rows.find(holds) {
            return Refused(row.number());
        }
        image.copy_from_slice(&image_of(&body_of(self)));
        Done
    }

    /// Load: the shape, the map and the catalogue become the image's. The scratch is all zeros afterwards, whatever the
    /// answer, 21 too.
    pub fn load(&mut self, role: u32, image: &[u8], scratch: &mut [u64]) -> Answer {
        scratch.fill(0);
        let (image, mut rows) = (&Image::of(image), LOAD.1.iter());
        let holds = |row: &&Row| self.load_holds(role, **row, image, scratch.len());
        if let Some(row) = rows.find(holds) {
            return Refused(row.number());
        }
        let state = image.state().unwrap();
        (self.n, self.free) = (state.n, state.free);
        self.map = state.map;
        self.sheets = state.sheets;
        Done
    }
}

/// An image with the bodies of its whole blocks.
struct Image<'a> {
    bytes: &'a [u8],
    body: Vec<u8>,
}

impl Image<'_> {
    fn of(bytes: &[u8]) -> Image<'_> {
        let parts = bytes.chunks_exact(BLOCK).map(|block| &block[8..8 + BODY]);
        Image {
            bytes,
            body: parts.collect::<Vec<&[u8]>>().concat(),
        }
    }

    /// The number of whole blocks.
    fn total(&self) -> usize {
        self.bytes.len() / BLOCK
    }

    fn block(&self, b: usize) -> &[u8] {
        &self.bytes[BLOCK * b..BLOCK * (b + 1)]
    }

    fn check_holds(&self, b: usize) -> bool {
        let (first, sums_of_it) = (&self.block(b)[..504], &self.block(b)[504..]);
        let (a, b) = sums(first);
        sums_of_it == [a.to_be_bytes(), b.to_be_bytes()].concat()
    }

    fn n(&self) -> usize {
        number_at(&self.body, 0)
    }

    fn free(&self) -> usize {
        number_at(&self.body, 4)
    }

    fn c(&self) -> usize {
        number_at(&self.body, 8)
    }

    fn within_limits(&self) -> bool {
        (1..=262144).contains(&self.n())
            && (1..=1024).contains(&self.c())
            && self.free() <= self.n()
    }

    /// Where the entries, the words and the fill begin.
    fn fill_at(&self) -> usize {
        12 + 12 * self.c() + 8 * words_of(self.n())
    }

    fn fill(&self) -> &[u8] {
        self.body.get(self.fill_at()..).unwrap_or(&[])
    }

    /// The state, if the body has all of it.
    fn state(&self) -> Option<Card> {
        if self.fill_at() > self.body.len() {
            return None;
        }
        let number = |at: usize| number_at(&self.body, at) as u32;
        let sheet = |s: usize| {
            entry(
                number(12 + 12 * s),
                number(16 + 12 * s),
                number(20 + 12 * s),
            )
        };
        let words = |i: usize| word_at(&self.body, 12 + 12 * self.c() + 8 * i);
        Some(Card {
            n: self.n(),
            free: self.free(),
            map: from_words(&(0..words_of(self.n())).map(words).collect::<Vec<u64>>()),
            sheets: (0..self.c()).map(sheet).collect(),
            bytes: Vec::new(),
            summary: Vec::new(),
        })
    }
}

#[cfg(test)]
mod tests {
    use super::*;
    use crate::call::{call, Kind};
    use crate::roles::{CARER, PHARMACIST, SERVICE, UNKNOWN};

    fn fresh(n: usize, c: usize) -> Card {
        let mut card = Card {
            n: 0,
            free: 0,
            map: vec![false; 64 * words_of(n)],
            sheets: vec![entry(0, 0, 0); c],
            bytes: vec![],
            summary: vec![],
        };
        assert_eq!(card.call(call(Kind::Fresh, 0, n as u32), &mut []), Done);
        card
    }

    /// Document 01, "Table to be proved": the fresh image of 64 blocks and 1 sheet.
    #[test]
    fn sums_of_the_fresh_image() {
        let mut image = vec![0; 512];
        assert_eq!(fresh(64, 1).save(SERVICE, &mut [0], &mut image), Done);
        assert_eq!(number_at(&image, 504), 2236);
        assert_eq!(number_at(&image, 508), 3003);
    }

    #[test]
    fn the_largest_image_has_91_blocks() {
        assert_eq!(blocks_of(262144, 1024), MOST);
        assert_eq!(blocks_of(1, 1), 1);
    }

    #[test]
    fn what_is_saved_loads_back() {
        let mut card = fresh(70, 3);
        card.bytes = vec![0; 70 * 512];
        assert_eq!(card.call(call(Kind::Reserve, 1, 66), &mut []), Start(0, 70));
        let scratch = &mut [5, 5];
        let mut image = vec![0; 512];
        assert_eq!(card.save(PHARMACIST, scratch, &mut image), Done);
        assert_eq!(*scratch, [0, 0]);
        let mut other = fresh(100, 3);
        assert_eq!(other.load(PHARMACIST, &image, scratch), Done);
        other.bytes = card.bytes.clone();
        assert!(other == card);
        image[300] ^= 1;
        assert_eq!(other.load(PHARMACIST, &image, scratch), Refused(13));
    }
    /// A role that may not save or load is told 21, whatever else is wrong; nothing changes but the scratch, which is zeros.
    #[test]
    fn roles_of_save_and_load() {
        let card = fresh(70, 3);
        let mut image = vec![0; 512];
        assert_eq!(card.save(PHARMACIST, &mut [5, 5], &mut image), Done);
        for words in [2, 3] {
            let mut scratch = vec![5; words];
            for role in UNKNOWN.iter().chain([&CARER]) {
                let mut saved = [9; 512];
                assert_eq!(card.save(*role, &mut scratch, &mut saved), Refused(21));
                assert!(saved == [9; 512] && scratch == vec![0; words]);
                scratch.fill(5);
                let mut loaded = fresh(100, 3);
                let given = &image[words - 2..];
                assert_eq!(loaded.load(*role, given, &mut scratch), Refused(21));
                assert!(loaded == fresh(100, 3) && scratch == vec![0; words]);
            }
        }
        let mut saved = [9; 512];
        assert_eq!(card.save(SERVICE, &mut [5, 5], &mut saved), Done);
        assert!(saved == image[..]);
        let mut loaded = fresh(100, 3);
        assert_eq!(loaded.load(SERVICE, &image, &mut [5, 5]), Done);
        assert!(loaded == card);
        assert_eq!(card.save(SERVICE, &mut [5], &mut saved), Refused(1));
        assert_eq!(loaded.load(SERVICE, &image[1..], &mut []), Refused(12));
    }
}
