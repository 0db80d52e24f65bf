//! Lists for pause and resume, of sheets without blocks and of finished courses (document 02, (g)). A line is a call, or with +
//! what no call does.

pub(super) const LISTS: &[(&str, &str)] = &[
    ("pause", PAUSE),
    ("resume", RESUME),
    ("release of paused sheets", RELEASED),
];

/// Each standing; what a paused course admits: it covers its blocks, and its payloads are not shown.
const PAUSE: &str = "
    pause 0
    standing 0
    pause 0
    reserve 1 2
    pause 1
    put 1 0 1 496
    put 1 1 2 496
    pause 1
    complete 1
    pause 1
    standing 1
    pause 1
    show 1 0 496
    show 1 2 496
    show 1 0 0
    put 1 0 3 496
    grow 1 1
    complete 1
    reserve 1 1
    reserve-placed 1 1 0 70 1
    offer 1 1
    accept 1 10 1
    search 1
    survey
    reserve 2 1
    release 1
    search 1
    release 0
    pause 0
    pause 4

    +entry 1 0 0 0
    pause 1
    +entry 1 80 0 1
    pause 1
    +entry 1 80 2 1
    pause 1
    +entry 1 80 2 0
    pause 1
    +entry 1 67 2 0
    pause 1
    +entry 1 67 2 2
    pause 1
    +entry 1 67 69 2
    pause 1
    +entry 1 67 2 1
    +shape 70 0
    pause 1
    standing 1
    +entry 3 65 0 0
    pause 3
";

/// Each standing; the payloads that a course has after it was paused. A resume looks at no block's bytes.
const RESUME: &str = "
    resume 0
    resume 4
    resume 4294967295
    pause 0
    resume 0
    standing 0
    reserve 1 3
    resume 1
    put 1 0 1 496
    put 1 1 2 496
    put 1 2 3 496
    resume 1
    complete 1
    resume 1
    pause 1
    resume 1
    resume 1
    standing 1
    show 1 0 496
    show 1 1 496
    show 1 2 496

    pause 1
    +byte 700 1
    resume 1
    show 1 1 496
    show 1 0 496
    pause 1
    +byte 700 1
    +byte 512 64
    resume 1
    pause 1
    +byte 512 64
    resume 1
    show 1 1 496
    reserve 2 66
    pause 1
    reserve 3 1
    release 2
    reserve 3 1
    resume 1
    show 1 2 496
    pause 1
    release 1
    resume 1

    +entry 2 0 0 0
    resume 2
    +entry 2 80 1 0
    resume 2
    +entry 2 80 70 0
    resume 2
    +entry 2 80 4294967295 0
    resume 2
    +entry 2 80 4 1
    resume 2
    +entry 2 80 3 2
    resume 2
    +entry 2 80 70 1
    resume 2
    +entry 2 80 69 2
    resume 2
    +entry 2 80 1 4294967295
    resume 2
    +entry 2 80 4294967295 1
    resume 2
    +entry 2 80 4294967295 4294967295
    resume 2
    +entry 2 80 0 0
    resume 2
    +word 0 0 0
    +shape 70 0
    +entry 2 80 0 64
    resume 2
    standing 2
    +entry 2 80 0 65
    resume 2
    +word 1 0 0
    resume 2
    standing 2
    +entry 2 80 69 1
    resume 2
    standing 2
";

/// A release of a pause without blocks and of a paused course, whose blocks become free; and a free count that contradicts it.
const RELEASED: &str = "
    pause 0
    release 0
    reserve 0 5
    reserve 1 3
    put 1 0 1 496
    put 1 1 2 496
    put 1 2 3 496
    complete 1
    pause 1
    +shape 70 68
    release 1
    +shape 70 67
    release 1
    +shape 70 65
    release 1
    reserve 2 65
    standing 2
    complete 2
    release 2
    release 0

    reserve 3 64
    pause 0
    +entry 3 80 0 64
    release 0
    search 7
    release 3
    search 70
    +entry 3 80 0 64
    release 3
    +entry 3 80 70 0
    release 3
";
