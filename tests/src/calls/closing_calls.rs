//! Lists for closing the gaps (document 02, (l)): `close` and `summary-close` have the number of words of the scratch, of which
//! 70 blocks ask for two. A line is a call, or with + what no call does.

pub(super) const LISTS: &[(&str, &str)] = &[
    ("closing", CLOSING),
    ("closing, what stays", STAYS),
    ("closing, states that are not sound", UNSOUND),
    ("closing with a summary", WITH_SUMMARY),
];

/// Cards without gaps, with one and with some; an older offer; long sheets that fit afterwards.
const CLOSING: &str = "
    close 2
    reserve 0 10
    close 2
    reserve 1 20
    reserve 2 30
    close 2
    release 1
    offer 1 30
    offer 1 20
    close 2
    standing 0
    standing 2
    accept 1 10 20
    offer 1 31
    offer 1 30
    reserve 1 30
    close 2
    survey
    reserve 3 1
    release 0
    close 2
    search 10
    search 11
    standing 1
    standing 2
    release 2
    close 2
    standing 1
    release 1
    close 2
    survey
    reserve 0 70
    close 2
    standing 0
";

/// Sheets whose numbers are in another order than their starts, on both sides of a word's end, of every standing, with what
/// they hold; the blocks behind them keep their bytes.
const STAYS: &str = "
    accept 3 5 2
    accept 1 61 5
    accept 0 20 3
    put 3 0 1 496
    put 3 1 2 496
    put 1 0 11 496
    put 1 1 12 496
    put 1 2 13 496
    put 1 3 14 496
    put 1 4 15 496
    put 0 0 21 496
    put 0 2 23 496
    complete 3
    complete 1
    pause 1
    pause 2
    close 2
    standing 0
    standing 1
    standing 2
    standing 3
    complete 0
    put 0 1 22 496
    complete 0
    show 0 0 496
    show 0 1 496
    show 0 2 496
    show 3 1 496
    show 1 0 496
    resume 1
    show 1 0 496
    show 1 4 496
    close 2
    release 2
    accept 2 68 2
    release 3
    close 2
    show 1 2 496
    grow 2 1
    grow 2 58
    close 2
    show 0 2 496
    survey
";

/// Row 1 before row 4; each way in which a state is not sound.
const UNSOUND: &str = "
    accept 1 5 3
    accept 2 60 6
    close 0
    close 1
    close 3
    close 4
    +shape 70 62
    close 2
    close 1
    +shape 70 60
    close 2
    +shape 70 61
    +word 1 67108863 4294967295
    close 2
    +word 1 1006632959 4294967295
    close 2
    +word 1 1006632960 0
    +entry 0 79 7 1
    close 2
    +entry 0 79 8 1
    close 2
    +entry 0 0 0 0
    close 2
    +entry 0 80 1 0
    close 2
    +entry 0 80 7 1
    close 2
    +entry 0 65 0 1
    close 2
    +entry 0 67 4294967295 1
    close 2
    +entry 0 65 0 0
    +entry 1 79 5 2
    close 2
    +entry 1 79 4 4
    close 2
    +entry 1 79 5 3
    +byte 2700 1
    close 2
    standing 1
    standing 2
    survey
";

/// A summary is built anew, whatever it was; one of the wrong length is 1.
const WITH_SUMMARY: &str = "
    summary-build
    summary-close 2
    summary-check
    summary-accept 0 10 20
    summary-accept 1 50 10
    summary-close 2
    summary-check
    summary-reserve 2 41
    summary-reserve 2 40
    summary-release 0
    close 2
    summary-check
    summary-close 2
    summary-check
    +number 2 0
    summary-close 2
    summary-check
    summary-reserve 0 21
    summary-reserve 0 20
    summary-close 2
    summary-check
    summary-close 1
    +summary 8
    summary-close 2
    summary-close 1
    +summary 9
    +shape 70 1
    summary-close 2
    +shape 70 0
    summary-close 2
    summary-check
";

/// Cards of one word and of two that end at a word's end and beside it.
pub(super) const WORDS: &str = "
    +lend 1 4 32256
    fresh 63
    accept 0 62 1
    close 1
    standing 0
    close 2
    +lend 1 4 32768
    fresh 64
    accept 0 63 1
    accept 1 0 1
    accept 2 30 20
    close 1
    standing 0
    standing 1
    standing 2
    +lend 2 4 33280
    fresh 65
    accept 0 64 1
    accept 1 63 1
    close 1
    close 2
    standing 0
    standing 1
    survey
    +lend 2 4 35840
";
