//! Lists for placed reserves (document 02, (a)): sheet, k, from, before and step. A line is a call, or with + what no call
//! does.

pub(super) const LISTS: &[(&str, &str)] =
    &[("placed reserve", PLACED), ("full for the figures", FULL)];

/// What refuses them, in its order; then figures and the starts that they give.
const PLACED: &str = "
    reserve-placed 4 1 0 70 1
    reserve-placed 4294967295 0 0 0 0
    reserve-placed 0 0 0 70 1
    reserve-placed 0 0 0 70 0
    reserve-placed 0 0 5 5 1
    reserve-placed 0 0 0 71 1
    reserve-placed 0 1 0 70 0
    reserve-placed 0 1 5 5 1
    reserve-placed 0 1 6 5 1
    reserve-placed 0 1 0 0 1
    reserve-placed 0 1 0 71 1
    reserve-placed 0 1 0 128 1
    reserve-placed 0 1 70 71 1
    reserve-placed 0 1 0 4294967295 1
    reserve-placed 0 1 4294967295 4294967295 4294967295
    reserve-placed 0 1 4294967294 4294967295 2
    reserve-placed 0 71 0 71 0
    reserve-placed 0 4294967295 0 70 0
    reserve-placed 0 71 0 70 1
    reserve-placed 0 4294967295 0 70 1
    reserve-placed 0 4294967295 1 70 4294967295
    reserve-placed 0 4294967228 69 70 1

    reserve-placed 0 5 0 70 1
    standing 0
    reserve-placed 1 3 0 70 8
    reserve-placed 2 4 0 70 3
    standing 2
    reserve-placed 3 1 0 70 7
    survey
    reserve-placed 0 1 0 0 0
    release 0
    release 1
    release 2
    release 3

    reserve-placed 0 3 61 70 1
    reserve-placed 1 3 61 70 3
    reserve-placed 2 2 0 64 63
    release 2
    reserve-placed 2 1 60 61 1
    reserve-placed 3 1 64 66 1
    survey
    release 0
    release 1
    release 2
    release 3
    reserve-placed 0 10 60 70 10
    release 0
    reserve-placed 0 10 60 69 10
    reserve-placed 0 10 61 70 1
    reserve-placed 0 10 0 69 60
    release 0
    reserve-placed 0 70 0 70 70
    release 0
    reserve-placed 0 69 1 70 1
    release 0
    reserve-placed 0 1 69 70 1
    release 0
";

/// A card that is full for some figures only, at each step; sheets that stand otherwise; what no call does.
const FULL: &str = "
    reserve-placed 0 1 0 1 4294967295
    reserve-placed 1 1 1 70 4294967295
    reserve-placed 1 1 1 70 100
    reserve-placed 1 1 1 70 70
    reserve-placed 1 1 1 70 4096
    reserve-placed 1 1 1 70 69
    release 1
    reserve-placed 1 1 0 70 65
    release 1
    reserve-placed 1 6 0 70 64
    release 1
    reserve-placed 1 7 0 70 64
    reserve-placed 1 7 0 70 63
    release 1
    reserve-placed 1 8 0 70 63
    reserve-placed 1 8 0 70 62
    release 1
    reserve 1 8

    reserve-placed 2 1 0 9 1
    reserve-placed 2 2 0 10 1
    reserve-placed 2 2 0 11 9
    release 2
    reserve-placed 2 2 0 11 8
    reserve-placed 2 2 3 18 8
    reserve-placed 3 2 0 17 16
    reserve-placed 3 2 0 17 1
    release 3
    reserve-placed 3 6 0 16 1
    release 3
    reserve-placed 3 6 0 70 6

    put 3 0 3 496
    put 3 5 3 496
    reserve-placed 3 1 0 70 1
    reserve-placed 3 0 0 0 0
    complete 3
    put 3 1 3 496
    put 3 2 3 496
    put 3 3 3 496
    put 3 4 3 496
    complete 3
    show 3 5 496
    reserve-placed 3 1 0 70 1
    reserve-placed 3 1 0 70 0
    release 1
    pause 1
    reserve-placed 1 1 0 70 1
    reserve-placed 1 1 0 70 0
    release 1

    +entry 1 0 0 0
    reserve-placed 1 1 0 70 1
    reserve-placed 1 0 0 70 0
    reserve-placed 1 1 0 71 1
    reserve-placed 1 71 0 70 1
    +entry 1 65 0 0
    +shape 70 3
    reserve-placed 1 4 0 70 0
    reserve-placed 1 4 0 4 1
    reserve-placed 1 4 30 70 1
    reserve-placed 1 3 30 70 4
    release 1
    +shape 70 0
    reserve-placed 1 1 69 70 1
    reserve-placed 1 1 70 70 1
    +word 1 67108863 4294967295
    reserve-placed 1 1 0 71 1
    +shape 70 70
    +word 0 0 0
    reserve-placed 1 1 0 70 1
    reserve-placed 1 1 69 70 7
";

/// The last blocks of words and of cards.
pub(super) const BOUNDARIES: &str = "
    +lend 1 4 32256
    fresh 63
    reserve-placed 0 1 62 63 31
    reserve-placed 1 62 0 63 1
    reserve-placed 2 1 0 64 1
    release 0
    release 1
    +lend 1 4 32768
    fresh 64
    reserve-placed 0 1 63 64 63
    reserve-placed 1 63 0 64 64
    reserve-placed 2 1 0 65 1
    release 0
    release 1
    +lend 2 4 33280
    fresh 65
    reserve-placed 0 1 64 65 64
    reserve-placed 1 64 0 65 64
    reserve-placed 2 1 0 66 1
    survey
    release 1
    reserve-placed 1 2 62 65 2
    release 0
    reserve-placed 0 1 62 65 2
";
