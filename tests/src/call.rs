//! A call with its arguments, as it is made of the card, of the ledger and of the library; and of each kind of call its name
//! and the rows that refuse it.

use crate::blocks::{figures, Figures};
use crate::calendar::{date, Date};
use crate::random::Random;
use crate::roles::PHARMACIST;
use crate::rows::Row::{self, *};
use std::fmt;

#[derive(Clone, Copy, Debug, PartialEq, Eq, PartialOrd, Ord)]
pub enum Kind {
    Fresh,
    Search,
    Survey,
    Reserve,
    ReservePlaced,
    Offer,
    Accept,
    Put,
    Grow,
    Complete,
    Pause,
    Resume,
    Release,
    Close,
    Show,
    ShowDated,
    Standing,
    ReserveWithSummary,
    ReservePlacedWithSummary,
    AcceptWithSummary,
    GrowWithSummary,
    ReleaseWithSummary,
    CloseWithSummary,
    SummaryBuild,
    SummaryCheck,
}

/// Every kind of call, with the rows of document 01's table that can refuse it, in the order under the table. A row of
/// document 02 stands where its request says.
#[rustfmt::skip]
pub const CALLS: [(Kind, &str, &[Row]); 25] = [
    (Kind::Fresh, "fresh", &[Role, Blocks, Sheets, MapLength]),
    (Kind::Search, "search", &[Role, Blocks, FreeAboveN, MapLength, NoBlocks, NoFit]),
    (Kind::Survey, "survey", &[Role, Blocks, FreeAboveN, MapLength]),
    (Kind::Reserve, "reserve", &[Role, Blocks, Sheets, FreeAboveN, MapLength, CardLength, NoSheet, Damaged,
        Paused, Open, Complete, NoBlocks, OverLimit, NoFit, FreeCount]),
    (Kind::ReservePlaced, "reserve-placed", &[Role, Blocks, Sheets, FreeAboveN, MapLength, CardLength, NoSheet, Damaged,
        Paused, Open, Complete, NoBlocks, NoStep, FromNotBefore, BeforeAboveN, OverLimit, NoFit, FreeCount]),
    (Kind::Offer, "offer", &[Role, Blocks, Sheets, FreeAboveN, MapLength, CardLength, NoSheet, Damaged,
        Paused, Open, Complete, NoBlocks, OverLimit, NoFit, FreeCount]),
    (Kind::Accept, "accept", &[Role, Blocks, Sheets, FreeAboveN, MapLength, CardLength, NoSheet, Damaged,
        Paused, Open, Complete, NoBlocks, OverLimit, RunNotFree, FreeCount]),
    (Kind::Put, "put", &[Role, Blocks, Sheets, FreeAboveN, MapLength, CardLength, NoSheet, Damaged,
        Absent, Paused, Complete, NoPlace, SliceLength]),
    (Kind::Grow, "grow", &[Role, Blocks, Sheets, FreeAboveN, MapLength, CardLength, NoSheet, Damaged,
        Absent, Paused, Complete, NoBlocks, OverLimit, NotNext, FreeCount]),
    (Kind::Complete, "complete", &[Role, Blocks, Sheets, FreeAboveN, MapLength, CardLength, NoSheet, Damaged,
        Absent, Paused, Complete, Unsound, Blank]),
    (Kind::Pause, "pause", &[Role, Blocks, Sheets, FreeAboveN, MapLength, NoSheet, Damaged, Paused, Open]),
    (Kind::Resume, "resume", &[Role, Blocks, Sheets, FreeAboveN, MapLength, NoSheet, Damaged,
        Absent, PausedEmpty, Open, Complete]),
    (Kind::Release, "release", &[Role, Blocks, Sheets, FreeAboveN, MapLength, NoSheet, Damaged, Absent, FreeCount]),
    (Kind::Close, "close", &[Role, Blocks, Sheets, FreeAboveN, MapLength, CardLength, ScratchLength, SavedState]),
    (Kind::Show, "show", &[Role, Blocks, Sheets, FreeAboveN, MapLength, CardLength, NoSheet, Damaged,
        Absent, Paused, Open, NoPlace, SliceLength, Unsound]),
    (Kind::ShowDated, "show-dated", &[Role, Blocks, Sheets, FreeAboveN, MapLength, CardLength, NoSheet, Damaged,
        Absent, Paused, Open, NoPlace, SliceLength, NoYear, NoMonth, NoDay, UnsoundFirst, OutsideTerm, Unsound]),
    (Kind::Standing, "standing", &[Role, Blocks, Sheets, FreeAboveN, MapLength, NoSheet, Damaged]),
    (Kind::ReserveWithSummary, "summary-reserve", &[Role, Blocks, Sheets, FreeAboveN, MapLength, SummaryLength, CardLength,
        NoSheet, Damaged, Paused, Open, Complete, NoBlocks, OverLimit, NoFit, FreeCount]),
    (Kind::ReservePlacedWithSummary, "summary-placed", &[Role, Blocks, Sheets, FreeAboveN, MapLength, SummaryLength, CardLength,
        NoSheet, Damaged, Paused, Open, Complete, NoBlocks, NoStep, FromNotBefore, BeforeAboveN, OverLimit, NoFit, FreeCount]),
    (Kind::AcceptWithSummary, "summary-accept", &[Role, Blocks, Sheets, FreeAboveN, MapLength, SummaryLength, CardLength,
        NoSheet, Damaged, Paused, Open, Complete, NoBlocks, OverLimit, RunNotFree, FreeCount]),
    (Kind::GrowWithSummary, "summary-grow", &[Role, Blocks, Sheets, FreeAboveN, MapLength, SummaryLength, CardLength,
        NoSheet, Damaged, Absent, Paused, Complete, NoBlocks, OverLimit, NotNext, FreeCount]),
    (Kind::ReleaseWithSummary, "summary-release", &[Role, Blocks, Sheets, FreeAboveN, MapLength, SummaryLength,
        NoSheet, Damaged, Absent, FreeCount]),
    (Kind::CloseWithSummary, "summary-close", &[Role, Blocks, Sheets, FreeAboveN, MapLength, SummaryLength, CardLength,
        ScratchLength, SavedState]),
    (Kind::SummaryBuild, "summary-build", &[Role, Blocks, FreeAboveN, MapLength, SummaryLength]),
    (Kind::SummaryCheck, "summary-check", &[Role, Blocks, FreeAboveN, MapLength, SummaryLength]),
];

/// The calls that change the map, each with its form that is lent a summary (document 02, (j)).
const FORMS: [(Kind, Kind); 6] = [
    (Kind::Reserve, Kind::ReserveWithSummary),
    (Kind::ReservePlaced, Kind::ReservePlacedWithSummary),
    (Kind::Accept, Kind::AcceptWithSummary),
    (Kind::Grow, Kind::GrowWithSummary),
    (Kind::Release, Kind::ReleaseWithSummary),
    (Kind::Close, Kind::CloseWithSummary),
];

/// The rows of save and load, which have an image and a scratch and no other arguments.
pub const SAVE: (&str, &[Row]) = (
    "save",
    &[
        Role,
        Blocks,
        Sheets,
        FreeAboveN,
        MapLength,
        ScratchLength,
        SavedState,
        ImageLength,
    ],
);
pub const LOAD: (&str, &[Row]) = (
    "load",
    &[
        Role,
        ImageLength,
        FrameNumber,
        FrameTotal,
        FrameCheck,
        HeadLimits,
        HeadTotal,
        MapLength,
        CatalogueLength,
        ScratchLength,
        LoadedState,
        Fill,
    ],
);

/// The names of all calls with their rows.
pub fn orders() -> impl Iterator<Item = (&'static str, &'static [Row])> {
    CALLS
        .iter()
        .map(|(_, name, rows)| (*name, *rows))
        .chain([SAVE, LOAD])
}

impl Kind {
    pub fn name(self) -> &'static str {
        CALLS[self as usize].1
    }

    /// The rows that can refuse the call, in their order.
    pub fn rows(self) -> &'static [Row] {
        CALLS[self as usize].2
    }

    pub fn named(name: &str) -> Option<Kind> {
        let call = CALLS.iter().find(|(_, other, _)| *other == name);
        call.map(|(kind, ..)| *kind)
    }

    /// Whether the call is for a sheet.
    pub fn has_sheet(self) -> bool {
        self.rows().contains(&NoSheet)
    }

    /// Whether the call has n, k, m, a place or a scratch.
    pub fn has_number(self) -> bool {
        let rows = [NoBlocks, NoPlace, ScratchLength];
        self == Kind::Fresh || rows.iter().any(|row| self.rows().contains(row))
    }

    /// Whether the call is lent a scratch.
    pub fn has_scratch(self) -> bool {
        self.rows().contains(&ScratchLength)
    }

    /// Whether the call brings a payload or a buffer.
    pub fn has_slice(self) -> bool {
        self.rows().contains(&SliceLength)
    }

    /// Whether limits go with the call.
    pub fn has_limits(self) -> bool {
        self.rows().contains(&OverLimit)
    }

    /// Whether the call is lent the summary.
    pub fn has_summary(self) -> bool {
        self.rows().contains(&SummaryLength)
    }

    /// Whether the call builds the lent summary anew, whatever it was.
    pub fn builds_anew(self) -> bool {
        matches!(self, Kind::SummaryBuild | Kind::CloseWithSummary)
    }

    /// The form of a call that is lent the summary; a call that has none is itself.
    pub fn with_summary(self) -> Kind {
        let form = FORMS.iter().find(|(without, _)| *without == self);
        form.map_or(self, |(_, form)| *form)
    }

    /// The call that this is a form of: what it does besides using the summary. A call that is no form is itself.
    pub fn without_summary(self) -> Kind {
        let form = FORMS.iter().find(|(_, form)| *form == self);
        form.map_or(self, |(without, _)| *without)
    }
}

/// Bytes that a number stands for, so that a call can be printed: 0 for zeros, 1 for 255s, any other for random bytes. Those of
/// a place 0 may start with a first and a last day (document 02, (m)).
#[derive(Clone, Copy)]
pub struct Bytes {
    pub seed: u32,
    pub length: usize,
    pub term: Option<(u32, u32)>,
}

pub const PAYLOAD: Bytes = Bytes {
    seed: 9,
    length: 496,
    term: None,
};

impl Bytes {
    pub fn contents(self) -> Vec<u8> {
        let mut bytes = self.of_seed();
        let Some((first, last)) = self.term else {
            return bytes;
        };
        let days = [first.to_be_bytes(), last.to_be_bytes()].concat();
        bytes
            .iter_mut()
            .zip(days)
            .for_each(|(byte, day)| *byte = day);
        bytes
    }

    fn of_seed(self) -> Vec<u8> {
        match self.seed {
            0 => vec![0; self.length],
            1 => vec![255; self.length],
            seed => {
                let random = &mut Random::of(seed as u64);
                (0..self.length)
                    .map(|_| (random.draw() >> 33) as u8)
                    .collect()
            }
        }
    }
}

/// The limits of the eight wings (document 02, (k)).
pub type Limits = [u32; 8];

/// The largest limits. They are passed only where the blocks held and wanted make a number of 33 bits.
pub const LARGEST: Limits = [u32::MAX; 8];

#[derive(Clone, Copy)]
pub struct Call {
    /// Who makes the call (document 02, (n)).
    pub role: u32,
    pub kind: Kind,
    /// The sheet that the call is for, 0 where it is for none.
    pub sheet: u32,
    /// n, k, m, the place or the number of words of the scratch, 0 where there is none.
    pub number: u32,
    /// Those of a placed reserve, 0 where there are none.
    pub figures: Figures,
    /// Where the run of an accept starts, 0 where there is none.
    pub start: u32,
    /// Those of a reserve, an offer, an accept or a grow.
    pub limits: Limits,
    /// That of a dated show, 1 January 2000 where there is none.
    pub date: Date,
    /// The payload that a put brings, or what a show's buffer has before.
    pub bytes: Bytes,
    pub search: Search,
}

/// How the search of a reserve ends. Document 02, (j), leaves that open where it is lent a false summary.
#[derive(Clone, Copy, PartialEq)]
pub enum Search {
    /// As the map and group 0 say.
    Exact,
    /// With this start, or with none.
    Ended(Option<usize>),
}

/// A pharmacist's call with a payload or a buffer of the right length.
pub const fn call(kind: Kind, sheet: u32, number: u32) -> Call {
    Call {
        role: PHARMACIST,
        kind,
        sheet,
        number,
        figures: figures(0, 0, 0),
        start: 0,
        limits: LARGEST,
        date: date(2000, 1, 1),
        bytes: PAYLOAD,
        search: Search::Exact,
    }
}

/// A placed reserve.
pub const fn placed(sheet: u32, count: u32, figures: Figures) -> Call {
    Call {
        figures,
        ..call(Kind::ReservePlaced, sheet, count)
    }
}

/// An accept of a run.
pub const fn accept(sheet: u32, start: u32, count: u32) -> Call {
    Call {
        start,
        ..call(Kind::Accept, sheet, count)
    }
}

/// A dated show.
pub const fn dated(sheet: u32, place: u32, date: Date) -> Call {
    Call {
        date,
        ..call(Kind::ShowDated, sheet, place)
    }
}

impl Call {
    pub const fn with_bytes(self, bytes: Bytes) -> Call {
        Call { bytes, ..self }
    }

    /// The call by another role.
    pub const fn by(self, role: u32) -> Call {
        Call { role, ..self }
    }

    /// The call with these limits.
    pub const fn with_limits(self, limits: Limits) -> Call {
        Call { limits, ..self }
    }

    /// The form of the call that is lent the summary; a call that has none is itself.
    pub fn with_summary(self) -> Call {
        let kind = self.kind.with_summary();
        Call { kind, ..self }
    }

    /// The call with a search that ends in some way.
    pub const fn with_search(self, search: Search) -> Call {
        Call { search, ..self }
    }

    /// The payload or the buffer, empty for a call that has none.
    pub fn slice(self) -> Vec<u8> {
        if self.kind.has_slice() {
            self.bytes.contents()
        } else {
            Vec::new()
        }
    }
}

impl fmt::Display for Call {
    fn fmt(&self, f: &mut fmt::Formatter) -> fmt::Result {
        let kind = self.kind;
        write!(f, "{}", kind.name())?;
        if kind.has_sheet() {
            write!(f, " {}", self.sheet)?;
        }
        if kind.without_summary() == Kind::Accept {
            write!(f, " {}", self.start)?;
        }
        if kind.has_number() {
            write!(f, " {}", self.number)?;
        }
        if kind.without_summary() == Kind::ReservePlaced {
            let Figures { from, before, step } = self.figures;
            write!(f, " {from} {before} {step}")?;
        }
        if kind.has_limits() && self.limits != LARGEST {
            write!(f, ", limits {:?}", self.limits)?;
        }
        if kind == Kind::ShowDated {
            write!(f, " {}", self.date)?;
        }
        let Bytes { seed, length, term } = self.bytes;
        if kind.has_slice() {
            write!(f, ", {length} bytes from {seed}")?;
        }
        if let Some((first, last)) = term {
            write!(f, " with days {first} and {last}")?;
        }
        match self.role {
            PHARMACIST => Ok(()),
            role => write!(f, ", by role {role}"),
        }
    }
}

#[cfg(test)]
mod tests;
