//! Lists for a summary beside the map (document 02, (j)): built and checked, and kept by the forms of the calls that change the
//! map. A line is a call, or with + what no call does.

pub(super) const LISTS: &[(&str, &str)] = &[
    ("summary, built and checked", BUILT),
    ("reserve with a summary", RESERVE),
    ("placed reserve with a summary", PLACED),
    ("accept and grow with a summary", ACCEPT),
    ("release with a summary", RELEASE),
];

/// The card's own, each number of it off by one, and that of another map. Bits from n on say nothing.
const BUILT: &str = "
    +summary 9
    summary-check
    summary-build
    summary-check
    +number 0 71
    summary-check
    +number 0 70
    +number 1 1
    summary-check
    +number 1 0
    +number 2 69
    summary-check
    +number 2 70
    +number 3 63
    summary-check
    +number 3 64
    +number 4 65
    summary-check
    +number 4 64
    +number 5 4294967295
    summary-check
    +number 5 64
    +number 6 5
    summary-check
    +number 6 6
    +number 7 6
    summary-check
    +number 7 0
    +number 8 7
    summary-check
    +number 8 6
    summary-check

    +word 1 4294967295 4294967295
    summary-check
    summary-build
    +word 1 67108863 4294967295
    summary-check
    summary-build
    +word 0 4026531840 0
    summary-check
    summary-build
    +word 0 1879048193 3
    summary-build
    +word 1 3221225472 0
    summary-build
    summary-check
    survey
";

/// What refuses a reserve, in its order, and runs on both sides of a word's end.
const RESERVE: &str = "
    summary-build
    summary-reserve 4 1
    summary-reserve 4294967295 0
    summary-reserve 0 0
    summary-reserve 0 71
    summary-reserve 0 4294967295
    summary-check
    summary-reserve 0 5
    summary-check
    summary-reserve 1 58
    summary-check
    summary-reserve 2 8
    summary-reserve 2 7
    summary-check
    summary-reserve 3 1
    summary-release 1
    summary-check
    summary-reserve 3 59
    summary-reserve 3 1
    summary-release 2
    summary-check
    summary-reserve 2 65
    summary-reserve 2 64
    summary-check
    survey

    summary-reserve 2 1
    summary-reserve 2 0
    put 3 0 3 496
    complete 3
    summary-reserve 3 1
    summary-reserve 3 71
    pause 1
    summary-reserve 1 1
    summary-reserve 1 0
    resume 1
    release 1
    summary-release 2
    summary-check

    +entry 1 0 0 0
    summary-reserve 1 1
    summary-reserve 1 0
    summary-reserve 1 71
    +entry 1 65 0 0
    +shape 70 3
    summary-reserve 1 0
    summary-reserve 1 65
    summary-reserve 1 64
    summary-reserve 1 4
    summary-check
    summary-reserve 1 3
    summary-check
    +shape 70 0
    summary-reserve 2 1
    +shape 70 70
    +word 0 0 0
    +word 1 67108863 4294967295
    summary-build
    summary-reserve 2 1
    +word 1 134217727 4294967295
    summary-build
    summary-reserve 2 2
    summary-reserve 2 1
    summary-check
";

/// The same for placed reserves, and figures that hide a run.
const PLACED: &str = "
    summary-build
    summary-placed 4 1 0 70 1
    summary-placed 0 0 0 70 0
    summary-placed 0 1 0 70 0
    summary-placed 0 1 9 9 1
    summary-placed 0 1 0 71 1
    summary-placed 0 71 0 71 1
    summary-placed 0 71 0 70 1
    summary-placed 0 6 60 65 1
    summary-placed 0 6 1 70 65
    summary-check
    summary-placed 0 6 1 70 31
    summary-check
    summary-placed 1 6 60 68 62
    summary-check
    summary-placed 2 25 0 70 1
    summary-placed 3 6 0 70 37
    summary-check
    summary-release 2
    summary-placed 2 1 0 70 4294967295
    summary-check
    summary-release 3
    summary-placed 3 1 68 70 69
    summary-placed 3 2 68 70 1
    summary-check
    summary-release 3
    summary-release 2
    summary-release 1
    summary-release 0
    summary-check
    summary-placed 0 70 0 70 70
    summary-check
    summary-placed 0 1 0 70 1
    summary-placed 1 1 0 70 1
    +shape 70 2
    summary-release 0
    summary-check
    +shape 70 0
    summary-release 0
    +shape 70 2
    summary-placed 1 3 9 70 9
    summary-placed 1 2 9 70 9
    summary-check
";

/// Accepts and grows: within a word, over a word's end, and refused.
const ACCEPT: &str = "
    summary-build
    summary-accept 4 0 1
    summary-accept 0 9 0
    summary-accept 0 70 1
    summary-accept 0 4294967295 1
    summary-accept 0 10 10
    summary-check
    summary-accept 1 19 1
    summary-accept 1 60 8
    summary-check
    summary-accept 2 63 1
    summary-accept 2 68 2
    summary-check
    summary-accept 3 0 10
    summary-check
    summary-grow 3 1
    summary-grow 0 0
    summary-grow 0 41
    summary-check
    summary-grow 0 40
    summary-check
    summary-grow 0 1
    survey
    summary-accept 0 0 1
    summary-release 1
    summary-grow 0 9
    summary-grow 0 8
    summary-check
    summary-grow 1 1
    pause 1
    summary-grow 1 1
    summary-accept 1 0 1
    put 2 0 1 496
    put 2 1 1 496
    complete 2
    summary-grow 2 1
    summary-accept 2 0 1
    summary-grow 4 1

    summary-release 3
    summary-release 0
    summary-check
    +shape 70 3
    summary-accept 0 5 4
    summary-accept 0 5 2
    summary-grow 0 2
    summary-grow 0 1
    summary-check
    +entry 0 79 4 3
    summary-grow 0 1
    summary-accept 0 40 1
    +entry 0 79 5 3
    +word 1 67108863 4294967295
    summary-build
    summary-accept 3 70 1
    summary-accept 3 62 3
    summary-accept 3 62 2
    summary-check
";

/// Releases of every standing, and refused ones.
const RELEASE: &str = "
    summary-build
    summary-release 0
    summary-release 4
    summary-reserve 0 66
    summary-check
    summary-release 0
    summary-check
    pause 1
    summary-release 1
    summary-release 1
    summary-check
    summary-reserve 2 3
    put 2 0 1 496
    put 2 1 2 496
    put 2 2 3 496
    complete 2
    summary-release 2
    summary-check
    summary-accept 2 63 2
    put 2 0 1 496
    put 2 1 2 496
    complete 2
    pause 2
    summary-check
    summary-release 2
    summary-check

    summary-reserve 0 5
    summary-reserve 1 2
    +shape 70 66
    summary-release 0
    summary-check
    summary-release 1
    summary-check
    +shape 70 65
    summary-release 0
    summary-check
    +entry 3 79 0 1
    summary-release 3
    +entry 3 67 70 1
    summary-release 3
    +entry 3 0 0 0
    summary-release 3
    summary-check
";

/// Summaries of one word, and of three words, to which a fourth is missing: a release over all three, and cards that end inside
/// the last.
pub(super) const WORDS: &str = "
    +lend 1 4 32256
    +summary 3
    fresh 63
    summary-build
    summary-check
    summary-accept 0 62 1
    summary-check
    +lend 1 4 32768
    fresh 64
    summary-check
    summary-build
    summary-reserve 0 64
    summary-check
    summary-reserve 1 1
    summary-release 0
    summary-check

    +lend 3 4 35840
    +summary 21
    +shape 192 0
    +word 0 0 0
    +word 1 0 0
    +word 2 0 0
    summary-check
    summary-build
    +entry 0 79 60 100
    summary-release 0
    summary-check
    +entry 1 67 10 1
    summary-release 1
    summary-check
    +word 0 4294967295 4294967295
    +word 1 4294967295 4294967295
    +word 2 4294967295 4294967295
    summary-check
    summary-build
    +shape 191 0
    summary-check
    summary-build
    +shape 129 0
    summary-build
    +word 2 2147483647 4294967295
    summary-build
    +word 1 4294967295 4294967294
    +word 2 4026531840 15
    summary-build
    summary-check
    +shape 192 0
    summary-build
    summary-check
    +number 20 1
    summary-check
    +number 20 0
    +number 21 9
    summary-check
    +lend 2 4 35840
    +summary 9
";
