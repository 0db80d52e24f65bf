//! Lists for release, show and standing. A line is a call, or with + what no call does.

pub(super) const LISTS: &[(&str, &str)] =
    &[("release", RELEASE), ("show", SHOW), ("standing", STANDING)];

const RELEASE: &str = "
    release 0
    reserve 0 66
    release 0
    pause 1
    release 1
    release 1
    reserve 2 3
    put 2 0 1 496
    put 2 1 2 496
    put 2 2 3 496
    complete 2
    release 2
    release 4

    reserve 2 3
    complete 2
    put 2 0 9 496
    complete 2
    release 2
    reserve 1 1
    grow 1 2
    complete 1
    release 1

    reserve 0 5
    reserve 1 2
    pause 2
    +shape 70 66
    release 0
    release 2
    release 1
    +shape 70 65
    release 0

    +entry 3 79 0 1
    release 3
    +entry 3 67 70 1
    release 3
    +entry 3 0 0 0
    release 3
";

const SHOW: &str = "
    show 0 0 496
    show 0 0 495
    pause 0
    show 0 0 496
    reserve 1 3
    put 1 0 1 496
    show 1 0 496
    show 1 3 496
    show 1 0 0
    show 4 0 496

    put 1 1 2 496
    put 1 2 3 496
    complete 1
    show 1 0 496
    show 1 1 496
    show 1 2 496
    show 1 3 496
    show 1 4294967295 496
    show 1 0 495
    show 1 0 497
    show 1 0 0

    +byte 1000 1
    show 1 1 496
    show 1 0 496
    show 1 2 496
    show 1 1 495
    +entry 1 79 1 1
    put 1 0 5 496
    +entry 1 67 0 3
    show 1 1 496
    +entry 0 79 0 2
    put 0 1 5 496
    +entry 0 80 0 0
    show 1 1 496
    +entry 1 79 0 3
    put 1 1 6 496
    +entry 1 67 0 3
    show 1 1 496

    +entry 2 67 4 0
    show 2 0 496
    +entry 2 67 4 1
    show 2 0 496
    reserve 3 1
    +entry 3 67 3 1
    show 3 0 496
";

const STANDING: &str = "
    standing 0
    standing 4
    standing 4294967295
    pause 0
    standing 0
    reserve 1 64
    standing 1
    reserve 2 1
    put 2 0 1 496
    complete 2
    standing 2
    release 0
    +shape 70 0
    standing 1

    +entry 3 0 0 0
    standing 3
    +entry 3 66 0 0
    standing 3
    +entry 3 4294967295 0 1
    standing 3
    +entry 3 65 1 0
    standing 3
    +entry 3 65 0 1
    standing 3
    +entry 3 80 1 0
    standing 3
    +entry 3 80 0 1
    standing 3
    +entry 3 80 2 62
    standing 3
    +entry 3 80 63 2
    standing 3
    +entry 3 80 0 65
    standing 3
    +entry 3 80 65 1
    standing 3
    +entry 3 80 64 2
    standing 3
    +entry 3 80 70 0
    standing 3
    +entry 3 80 0 71
    standing 3
    +entry 3 80 1 4294967295
    standing 3
    +entry 3 80 4294967295 1
    standing 3
    +entry 3 80 4294967295 0
    standing 3

    +entry 3 79 0 0
    standing 3
    +entry 3 67 10 0
    standing 3
    +entry 3 79 70 1
    standing 3
    +entry 3 79 1 4294967295
    standing 3
    +entry 3 67 4294967295 1
    standing 3
    +entry 3 67 4294967295 4294967295
    standing 3

    +entry 3 79 0 65
    standing 3
    +entry 3 67 0 66
    standing 3
    +word 0 2147483647 0
    standing 3
    +entry 3 79 0 1
    standing 3
    +entry 3 79 32 33
    standing 3
    +entry 3 79 31 34
    standing 3
    +entry 3 67 0 2
    standing 3
";
