//! Lists for the calls that lead to a complete sheet: reserve, put, grow and complete. A line is a call, or with + what no
//! call does.

pub(super) const LISTS: &[(&str, &str)] = &[
    ("reserve", RESERVE),
    ("put", PUT),
    ("grow", GROW),
    ("complete", COMPLETE),
];

const RESERVE: &str = "
    reserve 4 1
    reserve 4294967295 0
    reserve 0 0
    reserve 0 5
    reserve 1 60
    standing 1
    release 0

    reserve 1 1
    reserve 1 0
    pause 2
    reserve 2 1
    reserve 2 71
    reserve 3 1
    put 3 0 3 496
    complete 3
    reserve 3 1
    reserve 3 0

    reserve 0 10
    reserve 0 71
    reserve 0 4294967295
    release 3
    reserve 0 9
    reserve 3 1
    release 2
    reserve 2 1
    reserve 2 0
    release 0

    +entry 0 0 0 0
    reserve 0 1
    reserve 0 0
    reserve 0 71
    +entry 0 65 1 0
    reserve 0 1
    +entry 0 65 0 0

    +shape 70 3
    reserve 0 0
    reserve 0 71
    reserve 0 10
    reserve 0 4
    reserve 0 3
    release 0
    +shape 70 0
    reserve 0 1
";

const PUT: &str = "
    reserve 0 3
    put 0 0 1 496
    put 0 2 255 496
    put 0 2 100 496
    put 4 0 1 496
    put 0 3 1 496
    put 0 4294967295 1 496
    put 0 0 1 495
    put 0 0 1 497
    put 0 0 1 0
    put 0 3 1 0

    put 1 0 1 496
    put 1 0 1 1
    pause 1
    put 1 0 1 496
    reserve 2 1
    put 2 0 7 496
    complete 2
    put 2 0 8 496
    put 2 9 8 496
    put 2 0 1 495

    +entry 1 79 0 0
    put 1 0 1 496
    +entry 1 79 3 2
    put 1 0 1 496
    +shape 70 0
    +entry 1 79 0 3
    put 1 0 9 496
    +word 1 0 0
    +entry 1 79 69 1
    put 1 0 9 496
    put 1 1 9 496
";

const GROW: &str = "
    reserve 0 2
    put 0 1 1 496
    grow 0 3
    put 0 4 2 496
    grow 0 59
    grow 4 1
    grow 0 0

    grow 1 1
    grow 1 0
    reserve 1 1
    put 1 0 5 496
    complete 1
    grow 1 1
    grow 1 0
    pause 2
    grow 2 1
    grow 2 0

    grow 0 1
    grow 0 4294967295
    reserve 3 3
    grow 3 3
    grow 3 4294967295
    grow 3 0
    grow 3 2
    grow 3 1

    release 3
    release 1
    +shape 70 1
    grow 0 6
    grow 0 2
    grow 0 1
    +shape 70 0
    grow 0 1

    +entry 0 79 0 71
    grow 0 1
    +entry 0 79 60 10
    grow 0 1
    grow 0 0
    +entry 0 79 4294967295 1
    grow 0 1
";

const COMPLETE: &str = "
    complete 4
    reserve 0 3
    complete 0
    put 0 0 10 496
    complete 0
    put 0 2 30 496
    complete 0
    put 0 1 20 496
    complete 0
    standing 0
    complete 0

    complete 1
    pause 1
    complete 1
    +entry 1 80 1 0
    complete 1
    +entry 1 65 0 0

    reserve 1 4
    put 1 0 1 496
    put 1 2 3 496
    +byte 3584 1
    complete 1
    +byte 3584 1
    +byte 3072 128
    complete 1
    +byte 3072 128
    complete 1
    put 1 1 2 496
    put 1 3 4 496
    +byte 2559 1
    complete 1
    +byte 2559 1

    +byte 2563 1
    complete 1
    +byte 2563 3
    complete 1
    +byte 2563 2
    +byte 2567 1
    complete 1
    +byte 2567 1
    +byte 2568 128
    complete 1
    +byte 2568 128
    +byte 3067 1
    complete 1
    +byte 3067 1

    +entry 2 79 3 3
    put 2 2 3 496
    +entry 2 65 0 0
    complete 1
    +entry 1 79 4 2
    put 1 1 3 496
    +entry 1 79 3 4
    complete 1
    +entry 1 79 2 3
    put 1 2 3 496
    +entry 1 79 3 4
    complete 1
    put 1 1 50 496
    put 1 2 60 496
    complete 1
    show 1 1 496
    show 1 2 496
";
