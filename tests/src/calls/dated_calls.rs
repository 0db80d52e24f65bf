//! Lists for the dated show (document 02, (m)): sheet, place, year, month and day. `put-term` is a put whose payload starts
//! with two days. A line is a call, or with + what no call does.

pub(super) const LISTS: &[(&str, &str)] = &[
    ("dated show", DATED),
    ("dated show, edges of terms", EDGES),
    ("dated show, dates", DATES),
    ("dated show, blocks that are not sound", UNSOUND),
];

/// What refuses a dated show, in its order, and each standing. Day 8,825 is 29 February 2024.
const DATED: &str = "
    show-dated 0 0 2024 2 29
    show-dated 0 0 2024 2 30
    show-dated 4 0 2024 2 29
    show-dated 4294967295 0 0 0 0
    pause 0
    show-dated 0 0 2024 2 29
    reserve 1 3
    put-term 1 0 8825 8831
    show-dated 1 0 2024 2 29
    show-dated 1 3 2024 13 1
    put 1 1 2 496
    put-term 1 2 0 0
    complete 1
    show-dated 1 0 2024 2 29
    show-dated 1 1 2024 2 29
    show-dated 1 2 2024 3 6
    show-dated 1 2 2024 3 7
    show-dated 1 1 2024 2 28
    show-dated 1 3 2024 2 29
    show-dated 1 3 2024 2 28
    show-dated 1 4294967295 2024 2 30
    show-dated 1 1 2023 2 29
    show 1 1 496
    pause 1
    show-dated 1 1 2024 2 29
    resume 1
    show-dated 1 1 2024 3 1

    +entry 1 67 2 2
    show-dated 1 0 2024 2 29
    +entry 1 67 0 0
    show-dated 1 0 2024 2 29
    +entry 1 67 1 2
    show-dated 1 0 2000 1 1
    show-dated 1 3 2000 1 1
    +entry 1 0 0 0
    show-dated 1 0 2024 2 30
    +entry 1 67 0 3
    +shape 70 0
    show-dated 1 2 2024 3 2
";

/// Terms of a day, of all days, of none, and those that end behind the last date or start there; the bytes of a day.
const EDGES: &str = "
    reserve 0 1
    put-term 0 0 0 0
    complete 0
    show-dated 0 0 2000 1 1
    show-dated 0 0 2000 1 2
    show-dated 0 0 2099 12 31
    reserve 1 1
    put-term 1 0 36524 36524
    complete 1
    show-dated 1 0 2099 12 30
    show-dated 1 0 2099 12 31
    show-dated 1 0 2100 1 1
    reserve 2 1
    put-term 2 0 1 0
    complete 2
    show-dated 2 0 2000 1 1
    show-dated 2 0 2000 1 2
    show 2 0 496
    release 0
    release 1
    release 2

    reserve 0 1
    put-term 0 0 0 4294967295
    complete 0
    show-dated 0 0 2000 1 1
    show-dated 0 0 2099 12 31
    reserve 1 1
    put-term 1 0 36525 4294967295
    complete 1
    show-dated 1 0 2099 12 31
    show-dated 1 0 2000 1 1
    reserve 2 1
    put-term 2 0 36524 36525
    complete 2
    show-dated 2 0 2099 12 31
    show-dated 2 0 2099 12 30
    reserve 3 1
    put-term 3 0 4294967295 4294967295
    complete 3
    show-dated 3 0 2099 12 31
    release 0
    release 1
    release 2
    release 3

    reserve 0 1
    put-term 0 0 2147483648 4294967295
    complete 0
    show-dated 0 0 2012 1 1
    reserve 1 1
    put-term 1 0 256 65536
    complete 1
    show-dated 1 0 2000 9 12
    show-dated 1 0 2000 9 13
    show-dated 1 0 2000 9 14
    reserve 2 1
    put-term 2 0 257 16777216
    complete 2
    show-dated 2 0 2000 9 13
    show-dated 2 0 2000 9 14
    reserve 3 1
    put-term 3 0 366 730
    complete 3
    show-dated 3 0 2000 12 31
    show-dated 3 0 2001 1 1
    show-dated 3 0 2001 12 31
    show-dated 3 0 2002 1 1
";

/// Dates that exist and dates that do not, with a term of all days.
const DATES: &str = "
    reserve 0 1
    put-term 0 0 0 36524
    complete 0
    show-dated 0 0 1999 12 31
    show-dated 0 0 2000 1 1
    show-dated 0 0 2000 2 29
    show-dated 0 0 2000 2 30
    show-dated 0 0 2001 2 28
    show-dated 0 0 2001 2 29
    show-dated 0 0 2004 2 29
    show-dated 0 0 2096 2 29
    show-dated 0 0 2099 2 29
    show-dated 0 0 2099 12 31
    show-dated 0 0 2100 1 1
    show-dated 0 0 2100 2 29
    show-dated 0 0 2024 0 1
    show-dated 0 0 2024 1 0
    show-dated 0 0 2024 12 31
    show-dated 0 0 2024 13 1
    show-dated 0 0 2024 1 31
    show-dated 0 0 2024 1 32
    show-dated 0 0 2024 3 31
    show-dated 0 0 2024 4 30
    show-dated 0 0 2024 4 31
    show-dated 0 0 2024 5 31
    show-dated 0 0 2024 6 30
    show-dated 0 0 2024 6 31
    show-dated 0 0 2024 7 31
    show-dated 0 0 2024 8 31
    show-dated 0 0 2024 9 30
    show-dated 0 0 2024 9 31
    show-dated 0 0 2024 10 31
    show-dated 0 0 2024 11 30
    show-dated 0 0 2024 11 31
    show-dated 0 0 0 0 0
    show-dated 0 0 24 2 29
    show-dated 0 0 4294967295 1 1
    show-dated 0 0 2024 4294967295 1
    show-dated 0 0 2024 1 4294967295
    show-dated 0 0 4294967295 4294967295 4294967295
    show-dated 0 0 2280 1 1
    show-dated 0 0 2024 257 1
    show-dated 0 0 2024 1 257
    show-dated 0 0 2147485672 1 1
";

/// Place 0 is checked before the place wanted: 4 for it comes behind 19 and before 20, and 4 for the place wanted behind 20.
const UNSOUND: &str = "
    reserve 0 3
    put-term 0 0 8825 8831
    put 0 1 2 496
    put 0 2 3 496
    complete 0
    +byte 600 1
    show-dated 0 1 2024 2 29
    show-dated 0 1 2024 2 28
    show-dated 0 1 2024 2 30
    show-dated 0 0 2024 2 29
    show-dated 0 2 2024 2 29
    +byte 100 1
    show-dated 0 2 2024 2 29
    show-dated 0 2 2024 2 28
    show-dated 0 2 2024 2 30
    show-dated 0 0 2024 2 29
    show-dated 0 0 2024 2 28
    show 0 2 496
    +byte 100 1
    +byte 600 1
    show-dated 0 1 2024 2 29
    +byte 11 1
    show-dated 0 2 2024 2 29
    +byte 11 1

    +entry 1 79 0 1
    put-term 1 0 8825 8831
    +entry 1 65 0 0
    show-dated 0 1 2024 2 29
    +entry 0 79 0 3
    put-term 0 1 8825 8831
    +entry 0 67 1 2
    show-dated 0 1 2024 2 29
    show-dated 0 0 2024 2 29
    +entry 0 67 0 3
    show-dated 0 1 2024 2 29
";
