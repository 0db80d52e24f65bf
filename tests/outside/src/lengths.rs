//! Every length of what a call is lent, and the largest numbers.

use crate::beside::{Beside, Compared};
use crate::counts::Counts;
use crate::generate::accepted;
use crate::lists::used_card;
use bitwise::blocks::{figures, scratch_words, words_of};
use bitwise::calendar::date;
use bitwise::call::{accept, call, dated, placed, Bytes, Call, Kind, CALLS, PAYLOAD};
use bitwise::card::{entry, Card};
use bitwise::random::Random;
use bitwise::summary::build;

/// One call on a card.
pub fn one(card: &Card, call: Call, margin: usize, counts: &mut Counts) -> Result<(), String> {
    let mut beside = Beside::new(card.clone(), margin, Compared::All);
    beside.call(call, counts).map_err(|error| {
        let (words, sheets, bytes) = (card.map.len() / 64, card.sheets.len(), card.bytes.len());
        let (blocks, first) = (card.map.get(..4), card.sheets.first());
        let (numbers, group) = (card.summary.len(), card.summary.get(..3));
        format!(
            "n {}, free {}, {words} words (blocks 0 to 3: {blocks:?}), {sheets} entries (the first: {first:?}), \
            {bytes} bytes, a summary of {numbers} numbers (group 0: {group:?})\n    {call}\n{error}",
            card.n, card.free
        )
    })
}

/// A payload that starts with a term: day 8,825 is 29 February 2024.
const TERM: Bytes = Bytes {
    term: Some((8825, 8831)),
    ..PAYLOAD
};

/// A card of 70 blocks with its own summary: sheet 0 is complete, sheet 1 open and filled, sheet 2 absent, sheet 3 a paused
/// course.
pub fn four_sheets() -> Card {
    let mut card = used_card(70, 4, &mut Random::of(0));
    let calls = [
        call(Kind::Fresh, 0, 70),
        call(Kind::Reserve, 0, 2),
        call(Kind::Put, 0, 0).with_bytes(TERM),
        call(Kind::Put, 0, 1),
        call(Kind::Complete, 0, 0),
        call(Kind::Reserve, 1, 1),
        call(Kind::Put, 1, 0),
        accept(3, 10, 2),
        call(Kind::Put, 3, 0),
        call(Kind::Put, 3, 1),
        call(Kind::Complete, 3, 0),
        call(Kind::Pause, 3, 0),
    ];
    for call in calls {
        card.call(call, &mut call.slice());
    }
    card.summary = build(&card.map, card.n);
    card
}

/// Each slice of each call in many lengths, the others as they should be.
pub fn lengths(margin: usize, counts: &mut Counts) -> Result<(), String> {
    let whole = four_sheets();
    for (kind, ..) in CALLS {
        let call = accepted(kind, &whole, &mut Random::of(1));
        for card in other_lengths(&whole) {
            one(&card, call, margin, counts)?;
        }
    }
    for length in 0..=1100 {
        let bytes = Bytes {
            seed: 5,
            length,
            term: None,
        };
        let date = date(2024, 2, 29 + (length % 2) as u32);
        for call in [
            call(Kind::Put, 1, 0),
            call(Kind::Show, 0, 1),
            dated(0, 1, date),
        ] {
            one(&whole, call.with_bytes(bytes), margin, counts)?;
        }
    }
    Ok(())
}

/// A card, and the same with another length of the map, the summary, the catalogue or the card, or with another n or free
/// count.
fn other_lengths(whole: &Card) -> Vec<Card> {
    let mut cards = vec![whole.clone()];
    let mut add = |change: &dyn Fn(&mut Card)| {
        let mut card = whole.clone();
        change(&mut card);
        cards.push(card);
    };
    for words in 0..=4 {
        add(&|card| card.map.resize(64 * words, true));
    }
    for numbers in 0..=46 {
        add(&|card| card.summary.resize(numbers, 70));
    }
    for sheets in (0..=6).chain(1022..=1027) {
        add(&|card| card.sheets.resize(sheets, entry(0x41, 0, 0)));
    }
    let around = 70 * 512 - 514..=70 * 512 + 514;
    for bytes in (0..=2).chain(510..=514).chain(around) {
        add(&|card| card.bytes.resize(bytes, 0));
    }
    for n in [
        0, 1, 63, 64, 65, 69, 71, 127, 128, 129, 262144, 262145, 4294967295,
    ] {
        add(&|card| card.n = n);
        add(&|card| {
            card.n = n;
            card.bytes.resize(512 * n.min(200), 0);
        });
    }
    for free in (0..=72).chain([4294967295]) {
        add(&|card| card.free = free);
    }
    cards
}

/// The largest numbers of blocks and of sheets, and one more, with slices of the right length.
pub fn limits(margin: usize, counts: &mut Counts) -> Result<(), String> {
    for n in [262143, 262144, 262145, 262208] {
        for c in [1, 1023, 1024, 1025] {
            let map: Vec<bool> = (0..64 * words_of(n)).map(|b| b < n).collect();
            let card = Card {
                n,
                free: n,
                summary: build(&map, n),
                map,
                sheets: vec![entry(0x41, 0, 0); c],
                // Calls that are not lent the card need none.
                bytes: Vec::new(),
            };
            at_limits(card, margin, counts)?;
        }
    }
    let n = 262145;
    let card = Card {
        n,
        free: n,
        map: vec![true; 64 * words_of(n)],
        sheets: vec![entry(0x41, 0, 0)],
        bytes: vec![0; 512 * n],
        summary: build(&vec![true; n], n),
    };
    at_limits(card, margin, counts)
}

/// Placed reserves and accepts of a sheet: some that find no fit or no run, and those of all blocks, each then released. First
/// with a summary, which is built and checked, and then without it.
fn runs_of_all(n: u32, sheet: u32) -> Vec<Call> {
    let calls = [
        placed(sheet, 1, figures(1, n, n)),
        placed(sheet, n, figures(0, n, n)),
        call(Kind::Release, sheet, 0),
        accept(sheet, 1, n),
        accept(sheet, n, 1),
        accept(sheet, 0, n),
        call(Kind::Release, sheet, 0),
    ];
    let build = [Kind::SummaryBuild, Kind::SummaryCheck].map(|kind| call(kind, 0, 0));
    [&build, &calls.map(Call::with_summary)[..], &build, &calls].concat()
}

fn at_limits(card: Card, margin: usize, counts: &mut Counts) -> Result<(), String> {
    let (n, last) = (card.n as u32, card.sheets.len() as u32 - 1);
    // Standing first, of an Absent sheet; then all calls, of which the last take back what the others did.
    let others = CALLS.iter().map(|(kind, ..)| *kind);
    let others = others.filter(|kind| {
        let apart = matches!(
            kind,
            Kind::Release | Kind::Fresh | Kind::ReservePlaced | Kind::Accept
        );
        !apart && !kind.has_summary()
    });
    let kinds = std::iter::once(Kind::Standing).chain(others);
    let calls = kinds.chain([Kind::Release, Kind::Fresh]).map(|kind| {
        let sheet = if kind.has_sheet() { last } else { 0 };
        match kind {
            Kind::Fresh | Kind::Search | Kind::Reserve | Kind::Offer => call(kind, sheet, n),
            Kind::Grow => call(kind, sheet, 1),
            Kind::Close => call(kind, 0, scratch_words(n as usize) as u32),
            _ => call(kind, sheet, 0),
        }
    });
    let calls = runs_of_all(n, last).into_iter().chain(calls);
    let limits = format!("{n} blocks and {} sheets", card.sheets.len());
    let mut beside = Beside::new(card, margin, Compared::All);
    for call in calls {
        beside
            .call(call, counts)
            .map_err(|error| format!("{limits}, {call}: {error}"))?;
    }
    Ok(())
}
