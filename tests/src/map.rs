//! The worked examples of the map: a list of commands (tests/examples/map.list: searches, surveys and fresh maps), and what is
//! told of them (tests/examples/map.outcomes): the list, with an answer behind each command that has one. A command is a letter
//! with up to two numbers, and ends at a space or the end of a line:
//! ```text
//!     n2+70             a card of 70 blocks, whose map has 2 words; the window is 0-70
//!     b20-60            the window: what a search finds starts at 20 or behind it and ends before 60
//!     x1+2, o1+2        the map's words 0, 2, 4, .. or 1, 3, 5, .. become 2^32 + 2
//!     r5+7              the map's words become random ones, of kind 5 (`words` in random.rs) and from seed 7
//!     q15+7             the map becomes random runs, of 1 to 16 blocks (q127: 1 to 128), free and taken by turns, from seed 7
//!     f60+10, t60+10    the 10 blocks from 60 on become free, or taken
//!     m70               a fresh of 70 blocks
//!     s9:60,10, s11-    a search in the window for 9 blocks found them at 60, with a space of 10; one for 11 found nothing.
//!                       In a window that is not the whole map it is a placed reserve, which is not kept
//!     c:10,1,10         a survey: free blocks, runs, longest run
//!     w1:0f00..         word 1 of the map, if it has one
//!     d:43c1..          one number made of all its words
//! ```
//!
//! Behind a call that is refused otherwise stands an exclamation mark with the number. =this= is a heading.

mod command;
mod full_maps;
mod random_maps;
mod small_maps;
mod store;

use crate::calls::{by_card, Caller};
use store::Store;

/// The most words that a map may have.
const WORDS: usize = 4096;

/// What is told of each command of a list, by who makes the calls.
pub fn outcomes(list: &str, caller: Caller) -> String {
    let store = &mut Store::new(caller);
    list.split_inclusive([' ', '\n'])
        .map(|part| {
            let (command, end) = part.split_at(part.len() - 1);
            format!("{command}{}{end}", store.answer(command))
        })
        .collect()
}

/// The outcomes of the examples, worked out bit by bit.
pub fn examples() -> String {
    outcomes(&list(), by_card)
}

/// The list of the examples.
pub fn list() -> String {
    [
        small_maps::table(),
        small_maps::edges(),
        small_maps::two_words(),
        small_maps::junk(),
        small_maps::fresh_maps(),
        full_maps::full_maps(),
        small_maps::two_bytes(),
        small_maps::refused(),
        random_maps::random_maps(),
    ]
    .concat()
}
