//! Offers and accepts (document 02, (f)): what those of a list are examples of, and accepts of all runs of small cards.

use crate::counts::Counts;
use crate::lengths::one;
use crate::placed::card_with;
use bitwise::blocks::{least_fit, plain};
use bitwise::call::{accept, call, Call, Kind};
use bitwise::card::Card;
use bitwise::roles::may;
use bitwise::rows::Row;

const LOWEST: &str = "an accept of an offer that is the lowest fit";
const NOT_LOWEST: &str = "an accept of an offer that is the lowest fit no more";
const TAKEN: &str = "an accept of an offer whose run is not free any more";
const NOT_ABSENT: &str = "an accept of an offer whose sheet is not Absent any more";
const OF_ITS_OWN: &str = "an accept of a run that was not offered";
const TAKEN_BY_CLOSING: &str = "an accept of an offer from before a closing, not free any more";
const AFTER_CLOSING: &str = "an accept of an offer from before a closing, with another answer";
const LONG_SUM: &str = "an accept of a run whose end has 33 bits";

/// What lists must have had.
pub fn expected() -> impl Iterator<Item = String> {
    let kinds = [
        LOWEST,
        NOT_LOWEST,
        TAKEN,
        NOT_ABSENT,
        TAKEN_BY_CLOSING,
        AFTER_CLOSING,
        OF_ITS_OWN,
        LONG_SUM,
    ];
    kinds.map(str::to_string).into_iter()
}

/// The accept of what a card would offer, if it answers the offer.
pub fn accept_of(card: &Card, offer: Call) -> Option<Call> {
    if offer.kind != Kind::Offer || card.first(offer).is_some() {
        return None;
    }
    let start = least_fit(&card.map[..card.n], plain(card.n), offer.number as usize)?;
    Some(accept(offer.sheet, start as u32, offer.number))
}

/// The offers of a list that were answered, as the accepts of them; and how many of them a closing came after.
#[derive(Default)]
pub struct Offers(Vec<Call>, usize);

impl Offers {
    /// Keeps an offer, and counts what an accept is an example of. The call is the next one of the card.
    pub fn note(&mut self, card: &Card, call: Call, counts: &mut Counts) {
        self.0.extend(accept_of(card, call));
        if call.kind.without_summary() == Kind::Close && may(call.role, call.kind.name()) {
            self.1 = self.0.len();
        }
        if call.kind.without_summary() == Kind::Accept {
            self.note_accept(card, call, counts);
        }
    }

    /// Whether a call is the accept of one of them.
    pub fn has(&self, call: Call) -> bool {
        call.kind.without_summary() == Kind::Accept && has(&self.0, call)
    }

    fn note_accept(&self, card: &Card, call: Call, counts: &mut Counts) {
        let offered = self.has(call);
        let lowest = least_fit(&card.map[..card.n], plain(card.n), call.number as usize);
        let lowest = lowest == Some(call.start as usize);
        let kind = match card.first(call) {
            None if !offered => OF_ITS_OWN,
            None if lowest => LOWEST,
            None => NOT_LOWEST,
            Some(Row::RunNotFree) if offered => TAKEN,
            Some(Row::RunNotFree) if call.start.checked_add(call.number).is_none() => LONG_SUM,
            Some(Row::Paused | Row::Open | Row::Complete) if offered => NOT_ABSENT,
            Some(_) => return,
        };
        counts.note_kind(kind);
        if has(&self.0[..self.1], call) && !has(&self.0[self.1..], call) {
            counts.note_kind(if kind == TAKEN {
                TAKEN_BY_CLOSING
            } else {
                AFTER_CLOSING
            });
        }
    }
}

fn has(offers: &[Call], call: Call) -> bool {
    let of = |call: &Call| (call.sheet, call.start, call.number);
    offers.iter().any(|offer| of(offer) == of(&call))
}

/// All maps of up to 5 blocks, with all starts and lengths up to n + 1, the largest, and those whose end is 2^32 or a block
/// beside it; and offers of all lengths.
pub fn all_runs(margin: usize, counts: &mut Counts) -> Result<(), String> {
    for n in 1..=5 {
        let numbers = || (0..=n as u32 + 1).chain([u32::MAX - 1, u32::MAX]);
        for card in (0..1 << n).map(|blocks| card_with(n, 0, blocks)) {
            for k in numbers() {
                one(&card, call(Kind::Offer, 0, k), margin, counts)?;
                let ends = [0, 1, u32::MAX].map(|end| u32::wrapping_sub(end, k));
                for start in numbers().chain(ends) {
                    one(&card, accept(0, start, k), margin, counts)?;
                }
            }
        }
    }
    across_words(margin, counts)
}

/// All choices of the last 6 of 66 blocks, the others taken: runs on both sides of the end of a word.
fn across_words(margin: usize, counts: &mut Counts) -> Result<(), String> {
    for card in (0..1 << 6).map(|blocks| card_with(66, 60, blocks)) {
        for k in 1..=7 {
            one(&card, call(Kind::Offer, 0, k), margin, counts)?;
            for start in 59..=66 {
                one(&card, accept(0, start, k), margin, counts)?;
            }
        }
    }
    Ok(())
}
