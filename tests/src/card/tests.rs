//! Sealed blocks, and the lowest blank place of a card.

use super::*;
use crate::call::call;

/// Document 01, "Table to be proved".
#[test]
fn sums_of_zero_payloads() {
    let tail = |sheet| sealed(sheet, 0, &[0; PAYLOAD])[504..].to_vec();
    assert_eq!(tail(0), [0, 0, 0, 1, 0, 0, 1, 248]);
    assert_eq!(tail(1), [0, 0, 0, 2, 0, 0, 3, 237]);
}

#[test]
fn a_blank_block_is_never_sound() {
    assert!(!sound(&[0; BLOCK], 0, 0));
}

/// Of 5 places from block 2 on, those that are filled in this order, and the place with 9 after each.
#[test]
fn the_lowest_blank_place() {
    let mut card = Card {
        n: 8,
        free: 3,
        map: (0..64).map(|b| b == 0 || b == 1 || b == 7).collect(),
        sheets: vec![entry(OPEN, 2, 5)],
        bytes: vec![0; 8 * BLOCK],
        summary: Vec::new(),
    };
    let complete = call(Kind::Complete, 0, 0);
    for (filled, lowest) in [(1, 0), (4, 0), (0, 2), (3, 2)] {
        assert_eq!(card.put(0, filled, &[7; PAYLOAD]), Done);
        assert_eq!(card.call(complete, &mut []), Blank(lowest));
    }
}
