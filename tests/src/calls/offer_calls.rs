//! Lists for offer (sheet and k) and accept (sheet, start and length) (document 02, (f)). A line is a call, or with + what no
//! call does.

pub(super) const LISTS: &[(&str, &str)] = &[
    ("offer", OFFER),
    ("accept", ACCEPT),
    ("offer, then accept", BOTH),
];

/// What refuses an offer, in its order; and that it changes nothing.
const OFFER: &str = "
    offer 4 1
    offer 4294967295 0
    offer 0 0
    offer 0 1
    offer 0 70
    offer 0 71
    offer 0 4294967295
    standing 0
    reserve 0 5
    offer 0 1
    offer 0 0
    offer 1 65
    offer 1 66
    offer 1 5
    pause 2
    offer 2 1
    offer 2 71
    reserve 3 1
    put 3 0 3 496
    complete 3
    offer 3 1
    offer 3 0
    release 0
    offer 1 5
    offer 1 6
    reserve 1 5
    release 1

    +entry 1 0 0 0
    offer 1 1
    offer 1 0
    offer 1 71
    +entry 1 65 1 0
    offer 1 1
    +entry 1 65 0 0
    +shape 70 3
    offer 1 0
    offer 1 65
    offer 1 64
    offer 1 4
    offer 1 3
    +shape 70 0
    offer 1 1
    +shape 70 70
    +word 0 0 0
    +word 1 67108863 4294967295
    offer 1 1
    +word 1 134217727 4294967295
    offer 1 1
    offer 1 2
";

/// What refuses an accept, in its order: runs that are taken, that end behind n, and whose end has 33 bits.
const ACCEPT: &str = "
    accept 4 0 1
    accept 4294967295 4294967295 0
    accept 0 0 0
    accept 0 70 0
    accept 0 4294967295 0
    accept 0 70 1
    accept 0 69 2
    accept 0 0 71
    accept 0 1 70
    accept 0 4294967295 1
    accept 0 1 4294967295
    accept 0 4294967295 4294967295
    accept 0 4294967286 10
    accept 0 4294967286 11
    accept 0 4294967226 140
    accept 0 2147483648 2147483648
    accept 0 20 10
    accept 0 40 1
    accept 0 30 0
    accept 1 20 1
    accept 1 29 1
    accept 1 19 2
    accept 1 29 2
    accept 1 0 70
    accept 1 25 3
    accept 1 30 40
    accept 2 0 20
    standing 0
    standing 1
    standing 2
    accept 3 0 1
    accept 3 69 1
    release 1
    accept 3 69 1
    release 3
    accept 3 68 2
    put 3 1 9 496
    put 3 0 8 496
    complete 3
    accept 3 40 1
    accept 3 40 0
    show 3 1 496
    pause 1
    accept 1 40 1
    accept 1 40 0
    release 1

    +entry 1 0 0 0
    accept 1 40 1
    accept 1 40 0
    accept 1 20 1
    +entry 1 65 1 0
    accept 1 40 1
    +entry 1 65 0 0
    +shape 70 3
    accept 1 40 0
    accept 1 20 4
    accept 1 67 4
    accept 1 40 4
    accept 1 40 3
    release 1
    +shape 70 0
    accept 1 40 1
    accept 1 20 1
    accept 1 4294967295 1
    +shape 70 70
    release 3
    +word 1 67108863 4294967295
    accept 1 70 1
    accept 1 69 1
    accept 1 63 7
";

/// Accepts of what was offered, with other calls between: the run is still the lowest, is not, or is taken by then; a plain
/// reserve still gets the lowest.
const BOTH: &str = "
    reserve 0 10
    offer 1 20
    accept 1 10 20
    accept 1 10 20
    offer 2 6
    release 0
    accept 2 30 6
    offer 3 6
    accept 3 0 6
    standing 3
    release 3
    reserve 3 6
    release 3

    offer 3 8
    offer 0 8
    accept 0 0 8
    accept 3 0 8
    offer 3 8
    accept 3 36 8
    release 3
    offer 3 8
    pause 3
    accept 3 36 8
    release 3
    accept 3 36 8
    grow 3 26
    release 0
    offer 0 4
    release 2
    reserve 2 3
    accept 0 0 4
    offer 0 4
    offer 0 7
    accept 0 3 7
    put 0 0 1 496
    put 0 6 2 496
    complete 0
    release 0
    accept 0 3 6
    complete 0
    grow 0 2
    grow 0 1
    survey
    search 1
";

/// Runs that end at the last blocks of words and of cards, and that cross a word's end.
pub(super) const BOUNDARIES: &str = "
    +lend 1 4 32256
    fresh 63
    accept 0 62 1
    accept 1 63 1
    accept 1 61 2
    accept 1 0 62
    release 0
    release 1
    offer 0 63
    offer 0 64
    accept 0 0 63
    +lend 1 4 32768
    fresh 64
    accept 0 63 1
    accept 1 64 1
    accept 1 62 2
    accept 1 0 63
    release 0
    release 1
    accept 0 0 64
    +lend 2 4 33280
    fresh 65
    accept 0 64 1
    accept 1 65 1
    accept 1 63 2
    accept 1 63 1
    offer 2 63
    offer 2 64
    release 0
    release 1
    accept 0 63 2
    accept 1 62 1
    accept 2 62 3
    release 0
    accept 2 63 2
    survey
    release 2
    accept 2 0 65
    release 1
    accept 2 0 65
";
