//! The worked examples (tests/examples) through the C library.

use crate::beside::library_of;
use crate::library::{bytes, words, Lent};
use bitwise::blocks::from_words;
use bitwise::call::Call;
use bitwise::card::{entry, Answer, Card};
use bitwise::{calls, map};

/// What comes of a list of a set of examples, if there is such a set.
pub fn outcomes(set: &str, list: &str) -> Option<String> {
    match set {
        "calls" => Some(calls::outcomes(list, by_library)),
        "map" => Some(map::outcomes(list, by_library)),
        _ => None,
    }
}

const MARGIN: usize = 64;

fn hold<T: Copy + PartialEq>(what: &str, lent: &Lent<T>) {
    assert!(
        lent.margins_whole(),
        "something beside the lent {what} was changed"
    );
}

/// A call of the library, which is lent copies of what the card has. The card is then what the library left of them.
fn by_library(card: &mut Card, call: Call, slice: &mut [u8], scratch: &mut [u64]) -> Answer {
    let library = &mut library_of(card, MARGIN);
    library.scratch = words(scratch, MARGIN);
    let lent = &mut bytes(slice, MARGIN);
    let outcome = library.call(call, lent);
    hold("payload or buffer", lent);
    hold("map", &library.map);
    hold("catalogue", &library.catalogue);
    hold("card", &library.card);
    hold("summary", &library.summary);
    hold("scratch", &library.scratch);
    assert!(
        library.limits.now() == call.limits,
        "the limits were changed"
    );
    slice.copy_from_slice(lent.now());
    scratch.copy_from_slice(library.scratch.now());
    card.n = outcome.shape.blocks as usize;
    card.free = outcome.shape.free as usize;
    card.map = from_words(library.map.now());
    let sheets = library.catalogue.now().iter();
    card.sheets = sheets.map(|e| entry(e.mark, e.start, e.length)).collect();
    card.bytes.copy_from_slice(library.card.now());
    card.summary.copy_from_slice(library.summary.now());
    outcome.answer(call.kind)
}
