//! Lists of small maps: each section of them.

use super::command::*;
use crate::blocks::words_of;

pub(super) fn table() -> String {
    let rows = [
        (1, (0, 1), (0, 0), 1),
        (1, (0, 0), (0, 0), 1),
        (64, (0, 64), (0, 0), 64),
        (64, (0, 64), (0, 0), 65),
        (70, (0, 70), (0, 0), 70),
        (128, (60, 70), (0, 0), 9),
        (128, (10, 13), (60, 70), 3),
        (128, (64, 128), (0, 0), 64),
        (192, (63, 129), (0, 0), 66),
        (192, (63, 129), (0, 0), 67),
    ];
    let lines = rows.map(|(n, (a, b), (c, d), k)| {
        let free = format!("{} {}", run('f', a, b), run('f', c, d));
        format!("{} {NO_FREE} {free} s{k}\n", card(n))
    });
    format!("=document-01's-table=\n{}", lines.concat())
}

/// Both sides of the edges of four words.
const EDGES: [usize; 17] = [
    0, 1, 2, 62, 63, 64, 65, 66, 126, 127, 128, 129, 191, 192, 193, 255, 256,
];

/// A heading with a card of 256 blocks, and what is asked of the blocks from each edge to each edge behind it.
fn section(heading: &str, line: fn(usize, usize) -> String) -> String {
    let mut text = format!("={heading}= {}\n", card(256));
    for (i, &start) in EDGES.iter().enumerate() {
        for &end in &EDGES[i..] {
            text += &line(start, end);
        }
    }
    text
}

pub(super) fn edges() -> String {
    [
        section("one-free-run", free_run),
        section("one-taken-run", taken_run),
        section("windows", window),
        window(65, 63),
        window(256, 0),
        window(4294967295, 256),
    ]
    .concat()
}

fn free_run(start: usize, end: usize) -> String {
    let only = format!("{NO_FREE} {}", run('f', start, end));
    format!("{only} {} c\n", around(end - start))
}

fn taken_run(start: usize, end: usize) -> String {
    let sides = format!("{} {}", around(start), around(256 - end));
    format!("m256 {} {sides} c\n", run('t', start, end))
}

/// A window of a map that is all free, and of one with the blocks 60 to 69 and 120 to 199 free.
fn window(from: usize, before: usize) -> String {
    let searches = searches(&[1, 5, 64, 65]);
    format!("b{from}-{before} m256 {searches} {NO_FREE} f60+10 f120+80 {searches}\n")
}

/// Sizes of cards on both sides of the edges of words.
const SIZES: [usize; 14] = [1, 2, 63, 64, 65, 70, 127, 128, 129, 191, 192, 193, 256, 300];

pub(super) fn two_words() -> String {
    let lengths = [
        1, 2, 3, 32, 33, 62, 63, 64, 65, 66, 127, 128, 129, 192, 300, 4294967295,
    ];
    let turns = [
        (0xffffffffffffffff, 0xffffffffffffffff),
        (0x0000000000000000, 0x0000000000000000),
        (0xaaaaaaaaaaaaaaaa, 0xaaaaaaaaaaaaaaaa),
        (0x5555555555555555, 0x5555555555555555),
        (0xffffffffffffffff, 0x0000000000000000),
        (0x0000000000000000, 0xffffffffffffffff),
        (0x7fffffffffffffff, 0x7fffffffffffffff),
        (0xfffffffffffffffe, 0xfffffffffffffffe),
        (0xfffffffffffffffe, 0x7fffffffffffffff),
        (0x8000000000000001, 0x8000000000000001),
        (0x0000000000000001, 0xffffffffffffffff),
        (0x00000000ffffffff, 0xffffffff00000000),
        (0x7ffffffffffffffe, 0xffffffffffffffff),
    ];
    let mut text = "=two-words-by-turns=\n".to_string();
    for (even, odd) in turns {
        text += &format!("{} {}\n", card(300), by_turns(even, odd));
        for n in SIZES {
            text += &format!("{} {} c\n", card(n), searches(&lengths));
        }
    }
    text
}

/// The first n blocks are marked, and the bits from n on stay set.
pub(super) fn junk() -> String {
    let mut text = "=bits-from-n-on=\n".to_string();
    for n in SIZES {
        for letter in ['t', 'f'] {
            let ones = by_turns(u64::MAX, u64::MAX);
            let map = format!("{ones} {}", run(letter, 0, n));
            text += &format!("{} {map} {} c\n", card(n), around(n));
        }
    }
    text
}

pub(super) fn fresh_maps() -> String {
    let line = |(n, w)| format!("n{w}+{n} {} m{n} {}\n", held(), all_words(w));
    let all_sizes: String = (1..=130).map(|n| line((n, words_of(n)))).collect();
    let other_words = [(0, 2), (1, 3), (64, 3), (100, 4), (200, 2), (4294967295, 3)]
        .map(line)
        .concat();
    format!("=fresh-maps=\n{all_sizes}{other_words}")
}

/// Surveys of a run of about 14 blocks, which is as long as one can be that fills no byte, at each place in its bytes, before a
/// run of about as many.
pub(super) fn two_bytes() -> String {
    let mut text = format!("=runs-in-two-bytes= {}\n", card(128));
    for start in 8..16 {
        for (k, behind) in (12..=16).flat_map(|k| (12..=16).map(move |behind| (k, behind))) {
            text += &format!("{NO_FREE} f{start}+{k} f100+{behind} c\n");
        }
    }
    text
}

/// Shapes and lengths that no card has, k of 0, windows that are none, and the largest map.
pub(super) fn refused() -> String {
    let list = "\
        n0+0 s0 s1 c m0 m1\n\
        n0+1 s1 c m1\n\
        n2+64 s1 c m64\n\
        n2+70 x0 o0 f60+10 s0 s1 s11 c\n\
        n2+128 s0 s1 c\n\
        n2+129 s0 s1 c m129\n\
        n2+4294967295 s10 s4294967295 c m4294967295\n\
        n2+128 b200-128 s1 s0 b128-128 s1 b0-129 s1 s0 b0-127 s127 s128 s4294967295\n\
        n4096+262144 m262144 s262144 s262145 c t0+1 s262144 s262143 c d\n\
        n4096+262145 s1 c m262145 b0-100 s1 d\n";
    format!("=refused=\n{list}")
}
