//! Document 01's table of refusals, with the rows that document 02 adds: the order in which each call looks at them, and
//! which two of them can hold at once.
//!
//! A row that has several reasons ("n or c is outside its limits; free count above n; ...") is here once for each of them, so
//! that each reason is seen to come before, and behind, what the order says.

/// A reason for a refusal.
#[derive(Clone, Copy, Debug, PartialEq, Eq, PartialOrd, Ord)]
pub enum Row {
    /// 21: the role is unknown, or the call is not in its row.
    Role,
    /// 1: n is outside its limits.
    Blocks,
    /// 1: c is outside its limits.
    Sheets,
    /// 1: the free count is above n.
    FreeAboveN,
    /// 1: the lent map, summary, card, catalogue (on load) or scratch has the wrong length.
    MapLength,
    SummaryLength,
    CardLength,
    CatalogueLength,
    ScratchLength,
    /// 2: the sheet number is not below c.
    NoSheet,
    /// 4: the entry is damaged.
    Damaged,
    /// 5 to 8: the sheet has this standing, and the call does not admit it.
    Absent,
    Paused,
    /// 6, of a resume: the sheet is Paused and has no blocks.
    PausedEmpty,
    Open,
    Complete,
    /// 3: k or m is 0.
    NoBlocks,
    /// 3: the place is not below the length.
    NoPlace,
    /// 3: the payload or the show buffer has the wrong length.
    SliceLength,
    /// 15, of a placed reserve: step is 0, from ≥ before, or before > n.
    NoStep,
    FromNotBefore,
    BeforeAboveN,
    /// 18: what the sheet's wing holds and the blocks wanted are together more than the wing's limit.
    OverLimit,
    /// 19, of a dated show: the year is outside the span, or there is no such month or no such day of it.
    NoYear,
    NoMonth,
    NoDay,
    /// 4, of a dated show: the block of place 0 is not sound.
    UnsoundFirst,
    /// 20, of a dated show: the day lies outside the term that place 0 starts with.
    OutsideTerm,
    /// 4: a block is not sound; for complete also not blank.
    Unsound,
    /// 9: some place is blank.
    Blank,
    /// 10: there is no fit.
    NoFit,
    /// 11: the m next blocks are not all free and inside n.
    NotNext,
    /// 17, of an accept: the run is not all free and inside n.
    RunNotFree,
    /// 4: the free count contradicts the call.
    FreeCount,
    /// 4, of a save or a closing: the state is not sound. 14, of a load: the image's state is not.
    SavedState,
    LoadedState,
    /// 12: the image's length.
    ImageLength,
    /// 13: the number, the total or the check of a frame is wrong.
    FrameNumber,
    FrameTotal,
    FrameCheck,
    /// 14: n, c or the free count of an image is out of limits.
    HeadLimits,
    /// 14: the total does not fit n and c.
    HeadTotal,
    /// 14: the fill is not zero.
    Fill,
}

use Row::*;

impl Row {
    pub fn number(self) -> u32 {
        match self {
            Role => 21,
            Blocks | Sheets | FreeAboveN => 1,
            MapLength | SummaryLength | CardLength | CatalogueLength | ScratchLength => 1,
            NoSheet => 2,
            NoBlocks | NoPlace | SliceLength => 3,
            Damaged | UnsoundFirst | Unsound | FreeCount | SavedState => 4,
            Absent => 5,
            Paused | PausedEmpty => 6,
            Open => 7,
            Complete => 8,
            Blank => 9,
            NoFit => 10,
            NotNext => 11,
            ImageLength => 12,
            FrameNumber | FrameTotal | FrameCheck => 13,
            HeadLimits | HeadTotal | LoadedState | Fill => 14,
            NoStep | FromNotBefore | BeforeAboveN => 15,
            RunNotFree => 17,
            OverLimit => 18,
            NoYear | NoMonth | NoDay => 19,
            OutsideTerm => 20,
        }
    }
}

const STANDINGS: &[Row] = &[Absent, Paused, PausedEmpty, Open, Complete];

/// Two rows of a call, of which the first comes first in the call's order.
pub type Pair = (Row, Row);

/// Pairs that cannot hold at once where the first of them is the first row that holds at all, and why. An empty list of
/// calls stands for all of them.
type Apart = (
    &'static [&'static str],
    &'static [Row],
    &'static [Row],
    &'static str,
);

#[rustfmt::skip]
const APART: &[Apart] = &[
    (&[], &[NoSheet], &[Damaged, Absent, Paused, PausedEmpty, Open, Complete, NoPlace, UnsoundFirst, OutsideTerm, Unsound,
        Blank, NotNext, OverLimit],
        "a sheet that the catalogue does not have has no entry, no places and no blocks"),
    (&["release", "summary-release"], &[NoSheet], &[FreeCount], "a sheet that the catalogue does not have has no length"),
    (&[], STANDINGS, STANDINGS, "an entry has one mark"),
    (&["complete"], &[Absent], &[Unsound, Blank], "a sheet without places has no blocks"),
    (&["release", "summary-release"], &[Absent], &[FreeCount],
        "a free count not above n stays so if a length of 0 is added"),
    (&[], &[NoBlocks], &[NoFit, NotNext, RunNotFree], "a fit is for k ≥ 1, and no blocks are free and inside n"),
    (&[], &[NoBlocks], &[FreeCount], "0 is not above the free count"),
    (&[], &[NoYear, NoMonth, NoDay], &[OutsideTerm], "a date that does not exist has no number that could lie outside"),
];

/// All pairs of a call but those apart.
pub fn pairs(call: &str, order: &[Row]) -> Vec<Pair> {
    let apart = |first: Row, other: Row| {
        APART.iter().any(|(calls, firsts, others, _)| {
            let of_call = calls.is_empty() || calls.contains(&call);
            of_call && firsts.contains(&first) && others.contains(&other)
        })
    };
    let behind = |at: usize| order[at + 1..].iter().map(move |other| (order[at], *other));
    (0..order.len())
        .flat_map(behind)
        .filter(|(first, other)| !apart(*first, *other))
        .collect()
}
