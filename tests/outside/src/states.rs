//! All states of very small cards.

use crate::counts::Counts;
use crate::damage::MARKS;
use crate::lengths::one;
use bitwise::blocks::figures;
use bitwise::calendar::date;
use bitwise::call::{
    accept, call, dated, placed, Bytes, Call, Kind, Limits, CALLS, LARGEST, PAYLOAD,
};
use bitwise::card::{entry, sealed, Card};
use bitwise::summary::build;

/// Every map, free count, entry and call of cards of up to `most` blocks and one sheet, with the map's own summary, and for
/// complete and the shows every choice of blank, sound and unsound blocks.
pub fn states(most: usize, margin: usize, counts: &mut Counts) -> Result<(), String> {
    for n in 1..=most {
        for map in 0..2 << n {
            for free in 0..=n + 1 {
                for mark in MARKS.into_iter().chain([0, 0x42]) {
                    for extent in 0..(n + 2) * (n + 2) {
                        let (start, length) = (extent / (n + 2), extent % (n + 2));
                        // Those from n on are all free or all taken.
                        let map: Vec<bool> = (0..64).map(|b| map >> n.min(b) & 1 == 1).collect();
                        let card = Card {
                            n,
                            free,
                            summary: build(&map, n),
                            map,
                            sheets: vec![entry(mark, start as u32, length as u32)],
                            bytes: vec![0; 512 * n],
                        };
                        calls_on_state(card, margin, counts)?;
                    }
                }
            }
        }
    }
    Ok(())
}

fn calls_on_state(card: Card, margin: usize, counts: &mut Counts) -> Result<(), String> {
    let n = card.n as u32;
    for (kind, ..) in CALLS {
        for call in calls_of(kind.without_summary(), n) {
            let call = Call { kind, ..call };
            let limits = limits_of(&card, call);
            one(&card, call.with_limits(limits), margin, counts)?;
        }
    }
    for sheet in 1..=n + 1 {
        one(&card, call(Kind::Standing, sheet, 0), margin, counts)?;
    }
    on_all_blocks(card, margin, counts)
}

/// By turns the largest limits, the one that the sheet's wing comes to, and one less.
fn limits_of(card: &Card, call: Call) -> Limits {
    let sheet = card.sheets[0];
    let together = sheet.length + call.number;
    match (card.free as u32 + sheet.start + together + call.start) % 3 {
        0 => LARGEST,
        1 => [together; 8],
        _ => [together.saturating_sub(1); 8],
    }
}

/// The calls of a kind on a card of n blocks, with all numbers up to n + 1.
fn calls_of(kind: Kind, n: u32) -> Vec<Call> {
    let numbers = 0..=n + 1;
    match kind {
        // Of these every choice of blocks is tried below.
        Kind::Complete | Kind::Show | Kind::ShowDated => Vec::new(),
        Kind::Fresh => vec![call(kind, 0, n)],
        Kind::ReservePlaced => numbers
            .map(|number| placed(0, number, figures(number / 2, n, number)))
            .collect(),
        Kind::Accept => numbers
            .clone()
            .flat_map(|start| numbers.clone().map(move |number| accept(0, start, number)))
            .collect(),
        kind if kind.has_number() => numbers.map(|number| call(kind, 0, number)).collect(),
        _ => vec![call(kind, 0, 0)],
    }
}

/// Complete and the shows, of every choice of blank, sound and unsound blocks.
fn on_all_blocks(mut card: Card, margin: usize, counts: &mut Counts) -> Result<(), String> {
    let n = card.n as u32;
    let start = card.sheets[0].start;
    let held = matches!(card.sheets[0].mark, 0x4f | 0x43) && card.sheets[0].length > 0;
    let contents = if held { 3usize.pow(n) } else { 1 };
    // Days 1 and 2 are 2 and 3 January 2000.
    let term = Some((1, 2));
    let payload = Bytes { term, ..PAYLOAD }.contents();
    let dates = [date(2000, 1, 3), date(2000, 1, 1), date(2000, 1, 32)];
    for content in 0..contents {
        for b in 0..n {
            let place = b.wrapping_sub(start);
            let mut block = match content / 3usize.pow(b) % 3 {
                0 => vec![0; 512],
                _ => sealed(0, place, &payload),
            };
            if content / 3usize.pow(b) % 3 == 2 {
                block[7 + 124 * b as usize] ^= 1;
            }
            card.bytes[512 * b as usize..512 * b as usize + 512].copy_from_slice(&block);
        }
        one(&card, call(Kind::Complete, 0, 0), margin, counts)?;
        for place in 0..=n {
            one(&card, call(Kind::Show, 0, place), margin, counts)?;
            let dates = if place == 0 { &dates[..] } else { &dates[..1] };
            for date in dates {
                one(&card, dated(0, place, *date), margin, counts)?;
            }
        }
    }
    Ok(())
}
