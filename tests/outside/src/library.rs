//! The C functions (include/pagunlit.h), and the slices that they are lent.

use bitwise::blocks::Figures;
use bitwise::calendar::Date;
use bitwise::call::{Call, Kind};
use bitwise::card::{self, Answer};

#[repr(C)]
#[derive(Clone, Copy, Debug, PartialEq)]
pub struct Shape {
    pub blocks: u32,
    pub free: u32,
}

#[repr(C)]
#[derive(Clone, Copy, Debug, PartialEq)]
pub struct Entry {
    pub mark: u32,
    pub start: u32,
    pub length: u32,
}

#[repr(C)]
#[derive(Clone, Copy, Debug, PartialEq)]
pub struct Outcome {
    pub shape: Shape,
    pub number: u32,
    pub first: u32,
    pub second: u32,
    pub third: u32,
}

impl From<card::Entry> for Entry {
    fn from(entry: card::Entry) -> Entry {
        Entry {
            mark: entry.mark,
            start: entry.start,
            length: entry.length,
        }
    }
}

impl Outcome {
    /// The outcome that hands a shape and an answer back: the answer's number and its values, 0 where there are none.
    pub fn of(shape: Shape, answer: Answer) -> Outcome {
        let (number, values) = match answer {
            Answer::Done => (0, [0, 0, 0]),
            Answer::Start(start, space) => (0, [start as u32, space as u32, 0]),
            Answer::Offered(start, length) => (0, [start as u32, length as u32, 0]),
            Answer::Stands(e) => (0, [e.mark, e.start, e.length]),
            Answer::Counted(free, runs, longest) => (0, [free as u32, runs as u32, longest as u32]),
            Answer::Own(own) => (0, [own as u32, 0, 0]),
            Answer::Blank(place) => (9, [place as u32, 0, 0]),
            Answer::Refused(number) => (number, [0, 0, 0]),
        };
        Outcome {
            shape,
            number,
            first: values[0],
            second: values[1],
            third: values[2],
        }
    }

    /// The answer of a call of a kind that an outcome hands back: `of` with another value left out would be another outcome.
    pub fn answer(self, kind: Kind) -> Answer {
        let [first, second, third] =
            [self.first, self.second, self.third].map(|value| value as usize);
        let answer = match (self.number, kind.without_summary()) {
            (0, Kind::Search | Kind::Reserve | Kind::ReservePlaced | Kind::Accept) => {
                Answer::Start(first, second)
            }
            (0, Kind::Offer) => Answer::Offered(first, second),
            (0, Kind::Standing) => Answer::Stands(card::entry(self.first, self.second, self.third)),
            (0, Kind::Survey) => Answer::Counted(first, second, third),
            (0, Kind::SummaryCheck) => Answer::Own(first == 1),
            (0, _) => Answer::Done,
            (9, _) => Answer::Blank(first),
            (number, _) => Answer::Refused(number),
        };
        let all = Outcome::of(self.shape, answer);
        assert!(
            self == all,
            "{kind:?} gave {self:?}, and its answer is {all:?}"
        );
        answer
    }
}

#[rustfmt::skip]
mod c {
    use super::{Entry, Outcome, Shape};

    extern "C" {
        pub fn pagunlit_fresh(role: u32, shape: Shape, blocks: u32, map: *mut u64, maplen: usize, catalogue: *mut Entry,
            cataloguelen: usize) -> Outcome;
        pub fn pagunlit_search(role: u32, shape: Shape, map: *const u64, maplen: usize, k: u32) -> Outcome;
        pub fn pagunlit_survey(role: u32, shape: Shape, map: *const u64, maplen: usize) -> Outcome;
        pub fn pagunlit_reserve(role: u32, shape: Shape, map: *mut u64, maplen: usize, catalogue: *mut Entry,
            cataloguelen: usize, card: *mut u8, cardlen: usize, limits: *const u32, sheet: u32, count: u32) -> Outcome;
        pub fn pagunlit_reserve_placed(role: u32, shape: Shape, map: *mut u64, maplen: usize, catalogue: *mut Entry,
            cataloguelen: usize, card: *mut u8, cardlen: usize, limits: *const u32, sheet: u32, count: u32, from: u32,
            before: u32, step: u32) -> Outcome;
        pub fn pagunlit_offer(role: u32, shape: Shape, map: *const u64, maplen: usize, catalogue: *const Entry,
            cataloguelen: usize, card: *const u8, cardlen: usize, limits: *const u32, sheet: u32, count: u32) -> Outcome;
        pub fn pagunlit_accept(role: u32, shape: Shape, map: *mut u64, maplen: usize, catalogue: *mut Entry,
            cataloguelen: usize, card: *mut u8, cardlen: usize, limits: *const u32, sheet: u32, start: u32, count: u32)
            -> Outcome;
        pub fn pagunlit_grow(role: u32, shape: Shape, map: *mut u64, maplen: usize, catalogue: *mut Entry,
            cataloguelen: usize, card: *mut u8, cardlen: usize, limits: *const u32, sheet: u32, count: u32) -> Outcome;
        pub fn pagunlit_put(role: u32, shape: Shape, map: *const u64, maplen: usize, catalogue: *const Entry,
            cataloguelen: usize, card: *mut u8, cardlen: usize, sheet: u32, place: u32, payload: *const u8,
            payloadlen: usize) -> Outcome;
        pub fn pagunlit_complete(role: u32, shape: Shape, map: *const u64, maplen: usize, catalogue: *mut Entry,
            cataloguelen: usize, card: *const u8, cardlen: usize, sheet: u32) -> Outcome;
        pub fn pagunlit_pause(role: u32, shape: Shape, map: *const u64, maplen: usize, catalogue: *mut Entry,
            cataloguelen: usize, sheet: u32) -> Outcome;
        pub fn pagunlit_resume(role: u32, shape: Shape, map: *const u64, maplen: usize, catalogue: *mut Entry,
            cataloguelen: usize, sheet: u32) -> Outcome;
        pub fn pagunlit_release(role: u32, shape: Shape, map: *mut u64, maplen: usize, catalogue: *mut Entry,
            cataloguelen: usize, sheet: u32) -> Outcome;
        pub fn pagunlit_standing(role: u32, shape: Shape, map: *const u64, maplen: usize, catalogue: *const Entry,
            cataloguelen: usize, sheet: u32) -> Outcome;
        pub fn pagunlit_show(role: u32, shape: Shape, map: *const u64, maplen: usize, catalogue: *const Entry,
            cataloguelen: usize, card: *const u8, cardlen: usize, sheet: u32, place: u32, buffer: *mut u8, bufferlen: usize)
            -> Outcome;
        pub fn pagunlit_show_dated(role: u32, shape: Shape, map: *const u64, maplen: usize, catalogue: *const Entry,
            cataloguelen: usize, card: *const u8, cardlen: usize, sheet: u32, place: u32, year: u32, month: u32, day: u32,
            buffer: *mut u8, bufferlen: usize) -> Outcome;
        pub fn pagunlit_summary_build(role: u32, shape: Shape, map: *const u64, maplen: usize, summary: *mut u32,
            summarylen: usize) -> Outcome;
        pub fn pagunlit_summary_check(role: u32, shape: Shape, map: *const u64, maplen: usize, summary: *const u32,
            summarylen: usize) -> Outcome;
        pub fn pagunlit_reserve_with_summary(role: u32, shape: Shape, map: *mut u64, maplen: usize, summary: *mut u32,
            summarylen: usize, catalogue: *mut Entry, cataloguelen: usize, card: *mut u8, cardlen: usize,
            limits: *const u32, sheet: u32, count: u32) -> Outcome;
        pub fn pagunlit_reserve_placed_with_summary(role: u32, shape: Shape, map: *mut u64, maplen: usize,
            summary: *mut u32, summarylen: usize, catalogue: *mut Entry, cataloguelen: usize, card: *mut u8, cardlen: usize,
            limits: *const u32, sheet: u32, count: u32, from: u32, before: u32, step: u32) -> Outcome;
        pub fn pagunlit_accept_with_summary(role: u32, shape: Shape, map: *mut u64, maplen: usize, summary: *mut u32,
            summarylen: usize, catalogue: *mut Entry, cataloguelen: usize, card: *mut u8, cardlen: usize,
            limits: *const u32, sheet: u32, start: u32, count: u32) -> Outcome;
        pub fn pagunlit_grow_with_summary(role: u32, shape: Shape, map: *mut u64, maplen: usize, summary: *mut u32,
            summarylen: usize, catalogue: *mut Entry, cataloguelen: usize, card: *mut u8, cardlen: usize,
            limits: *const u32, sheet: u32, count: u32) -> Outcome;
        pub fn pagunlit_release_with_summary(role: u32, shape: Shape, map: *mut u64, maplen: usize, summary: *mut u32,
            summarylen: usize, catalogue: *mut Entry, cataloguelen: usize, sheet: u32) -> Outcome;
        pub fn pagunlit_close(role: u32, shape: Shape, map: *mut u64, maplen: usize, catalogue: *mut Entry,
            cataloguelen: usize, card: *mut u8, cardlen: usize, scratch: *mut u64, scratchlen: usize) -> Outcome;
        pub fn pagunlit_close_with_summary(role: u32, shape: Shape, map: *mut u64, maplen: usize, summary: *mut u32,
            summarylen: usize, catalogue: *mut Entry, cataloguelen: usize, card: *mut u8, cardlen: usize, scratch: *mut u64,
            scratchlen: usize) -> Outcome;
        pub fn pagunlit_save(role: u32, shape: Shape, map: *const u64, maplen: usize, catalogue: *const Entry,
            cataloguelen: usize, scratch: *mut u64, scratchlen: usize, image: *mut u8, imagelen: usize) -> Outcome;
        pub fn pagunlit_load(role: u32, shape: Shape, image: *const u8, imagelen: usize, map: *mut u64, maplen: usize,
            catalogue: *mut Entry, cataloguelen: usize, scratch: *mut u64, scratchlen: usize) -> Outcome;
        pub fn seal(sheet: u32, place: u32, payload: *const u8, payloadlen: usize, block: *mut u8, blocklen: usize) -> u32;
        pub fn check(block: *const u8, blocklen: usize) -> u32;
    }
}

/// A slice to lend, with a margin of other elements before and behind it that no call may change. Without a margin the
/// slice is the whole of its allocation, so that valgrind sees every read and write beside it.
pub struct Lent<T> {
    cells: Box<[T]>,
    margin: usize,
    guard: T,
}

impl<T: Copy + PartialEq> Lent<T> {
    pub fn new(contents: impl ExactSizeIterator<Item = T>, margin: usize, guard: T) -> Lent<T> {
        let mut cells = Vec::with_capacity(contents.len() + 2 * margin);
        cells.extend(std::iter::repeat_n(guard, margin));
        cells.extend(contents);
        cells.extend(std::iter::repeat_n(guard, margin));
        Lent {
            cells: cells.into_boxed_slice(),
            margin,
            guard,
        }
    }

    pub fn len(&self) -> usize {
        self.cells.len() - 2 * self.margin
    }

    pub fn now(&self) -> &[T] {
        &self.cells[self.margin..self.margin + self.len()]
    }

    /// The slice gets other contents.
    pub fn set(&mut self, contents: &[T]) {
        let length = self.len();
        self.cells[self.margin..self.margin + length].copy_from_slice(contents);
    }

    /// No element beside the slice has changed.
    pub fn margins_whole(&self) -> bool {
        let (before, rest) = self.cells.split_at(self.margin);
        let behind = &rest[self.len()..];
        before.iter().chain(behind).all(|cell| *cell == self.guard)
    }

    pub fn at(&mut self) -> *mut T {
        self.cells[self.margin..].as_mut_ptr()
    }
}

pub fn bytes(contents: &[u8], margin: usize) -> Lent<u8> {
    Lent::new(contents.iter().copied(), margin, 0xa5)
}

pub fn words(contents: &[u64], margin: usize) -> Lent<u64> {
    Lent::new(contents.iter().copied(), margin, 0xa5a5_5a5a_1234_ffff)
}

pub fn numbers(contents: &[u32], margin: usize) -> Lent<u32> {
    Lent::new(contents.iter().copied(), margin, 0x1234_a5a5)
}

pub fn entries(contents: &[card::Entry], margin: usize) -> Lent<Entry> {
    let guard = Entry {
        mark: 0x41,
        start: 0,
        length: 0,
    };
    Lent::new(contents.iter().map(|&entry| entry.into()), margin, guard)
}

/// What the calls are lent, and the shape last handed back.
pub struct Library {
    pub shape: Shape,
    pub map: Lent<u64>,
    pub catalogue: Lent<Entry>,
    pub card: Lent<u8>,
    pub summary: Lent<u32>,
    /// Eight numbers, those of the call at hand.
    pub limits: Lent<u32>,
    /// That of the call at hand, if it is a closing.
    pub scratch: Lent<u64>,
}

/// The calls. Each lends whole slices that overlap no other, for the time of the call: this is what the C functions ask for.
#[rustfmt::skip]
impl Library {
    pub fn call(&mut self, call: Call, slice: &mut Lent<u8>) -> Outcome {
        let (role, shape, sheet, number) = (call.role, self.shape, call.sheet, call.number);
        let (map, w) = (self.map.at(), self.map.len());
        let (sheets, c) = (self.catalogue.at(), self.catalogue.len());
        let (card, length) = (self.card.at(), self.card.len());
        let (bytes, count) = (slice.at(), slice.len());
        self.limits.set(&call.limits);
        let limits = self.limits.at();
        let (zeros, words) = (self.scratch.at(), self.scratch.len());
        if call.kind.has_summary() {
            return self.call_with_summary(call);
        }
        unsafe {
            match call.kind {
                Kind::Fresh => c::pagunlit_fresh(role, shape, number, map, w, sheets, c),
                Kind::Search => c::pagunlit_search(role, shape, map, w, number),
                Kind::Survey => c::pagunlit_survey(role, shape, map, w),
                Kind::Reserve => c::pagunlit_reserve(role, shape, map, w, sheets, c, card, length, limits, sheet, number),
                Kind::ReservePlaced => {
                    let Figures { from, before, step } = call.figures;
                    c::pagunlit_reserve_placed(
                        role, shape, map, w, sheets, c, card, length, limits, sheet, number, from, before, step)
                }
                Kind::Offer => c::pagunlit_offer(role, shape, map, w, sheets, c, card, length, limits, sheet, number),
                Kind::Accept => {
                    c::pagunlit_accept(role, shape, map, w, sheets, c, card, length, limits, sheet, call.start, number)
                }
                Kind::Put => c::pagunlit_put(role, shape, map, w, sheets, c, card, length, sheet, number, bytes, count),
                Kind::Grow => c::pagunlit_grow(role, shape, map, w, sheets, c, card, length, limits, sheet, number),
                Kind::Complete => c::pagunlit_complete(role, shape, map, w, sheets, c, card, length, sheet),
                Kind::Pause => c::pagunlit_pause(role, shape, map, w, sheets, c, sheet),
                Kind::Resume => c::pagunlit_resume(role, shape, map, w, sheets, c, sheet),
                Kind::Release => c::pagunlit_release(role, shape, map, w, sheets, c, sheet),
                Kind::Close => c::pagunlit_close(role, shape, map, w, sheets, c, card, length, zeros, words),
                Kind::Show => c::pagunlit_show(role, shape, map, w, sheets, c, card, length, sheet, number, bytes, count),
                Kind::ShowDated => {
                    let Date { year, month, day } = call.date;
                    c::pagunlit_show_dated(
                        role, shape, map, w, sheets, c, card, length, sheet, number, year, month, day, bytes, count)
                }
                Kind::Standing => c::pagunlit_standing(role, shape, map, w, sheets, c, sheet),
                form => unreachable!("{form:?} is lent the summary"),
            }
        }
    }

    fn call_with_summary(&mut self, call: Call) -> Outcome {
        let (role, shape, sheet, number) = (call.role, self.shape, call.sheet, call.number);
        let (map, w) = (self.map.at(), self.map.len());
        let (sums, m) = (self.summary.at(), self.summary.len());
        let (sheets, c) = (self.catalogue.at(), self.catalogue.len());
        let (card, l) = (self.card.at(), self.card.len());
        let limits = self.limits.at();
        let (zeros, words) = (self.scratch.at(), self.scratch.len());
        let Figures { from, before, step } = call.figures;
        unsafe {
            match call.kind {
                Kind::ReserveWithSummary => {
                    c::pagunlit_reserve_with_summary(role, shape, map, w, sums, m, sheets, c, card, l, limits, sheet, number)
                }
                Kind::ReservePlacedWithSummary => c::pagunlit_reserve_placed_with_summary(
                    role, shape, map, w, sums, m, sheets, c, card, l, limits, sheet, number, from, before, step),
                Kind::AcceptWithSummary => c::pagunlit_accept_with_summary(
                    role, shape, map, w, sums, m, sheets, c, card, l, limits, sheet, call.start, number),
                Kind::GrowWithSummary => {
                    c::pagunlit_grow_with_summary(role, shape, map, w, sums, m, sheets, c, card, l, limits, sheet, number)
                }
                Kind::ReleaseWithSummary => c::pagunlit_release_with_summary(role, shape, map, w, sums, m, sheets, c, sheet),
                Kind::CloseWithSummary => {
                    c::pagunlit_close_with_summary(role, shape, map, w, sums, m, sheets, c, card, l, zeros, words)
                }
                Kind::SummaryBuild => c::pagunlit_summary_build(role, shape, map, w, sums, m),
                Kind::SummaryCheck => c::pagunlit_summary_check(role, shape, map, w, sums, m),
                other => unreachable!("{other:?} is lent no summary"),
            }
        }
    }

    pub fn save(&mut self, role: u32, scratch: &mut Lent<u64>, image: &mut Lent<u8>) -> Outcome {
        let (map, w) = (self.map.at(), self.map.len());
        let (sheets, c) = (self.catalogue.at(), self.catalogue.len());
        let (zeros, words) = (scratch.at(), scratch.len());
        unsafe { c::pagunlit_save(role, self.shape, map, w, sheets, c, zeros, words, image.at(), image.len()) }
    }

    pub fn load(&mut self, role: u32, image: &mut Lent<u8>, scratch: &mut Lent<u64>) -> Outcome {
        let (map, w) = (self.map.at(), self.map.len());
        let (sheets, c) = (self.catalogue.at(), self.catalogue.len());
        let (zeros, words) = (scratch.at(), scratch.len());
        unsafe { c::pagunlit_load(role, self.shape, image.at(), image.len(), map, w, sheets, c, zeros, words) }
    }
}

pub fn seal(sheet: u32, place: u32, payload: &mut Lent<u8>, block: &mut Lent<u8>) -> u32 {
    unsafe {
        c::seal(
            sheet,
            place,
            payload.at(),
            payload.len(),
            block.at(),
            block.len(),
        )
    }
}

pub fn check(block: &mut Lent<u8>) -> u32 {
    unsafe { c::check(block.at(), block.len()) }
}
