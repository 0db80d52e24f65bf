//! Lists for wings that share a card (document 02, (k)), with 300 sheets, so that there are three wings. A line is a call, or
//! with + what no call does: `+limits` has the limits of the eight wings for the calls that follow, which are n before that.

pub(super) const LISTS: &[(&str, &str)] = &[
    ("limits", LIMITS),
    ("limits, the order of row 18", ORDER),
    ("limits, what a wing holds", HELD),
    ("limits with a summary", WITH_SUMMARY),
];

/// The largest limits, for what follows.
pub(super) const END: &str = "
    +limits 4294967295 4294967295 4294967295 4294967295 4294967295 4294967295 4294967295 4294967295
";

/// A fresh card of 70 blocks and 300 sheets, the lines of a list, and the end.
pub(super) fn on_70(list: &str) -> String {
    format!("+lend 2 300 35840\nfresh 70\n{list}\n{END}")
}

/// Each call at its wing's limit and one block above; the limits of the other wings do not matter.
const LIMITS: &str = "
    +limits 0 0 0 0 0 0 0 0
    reserve 0 1
    offer 0 1
    +limits 10 0 0 0 0 0 0 0
    reserve 128 1
    offer 0 11
    offer 0 10
    reserve 0 11
    reserve 0 10
    reserve 1 1
    offer 1 1
    accept 1 20 1
    reserve-placed 1 1 0 70 1
    grow 0 1
    +limits 12 0 0 0 0 0 0 0
    grow 0 3
    grow 0 2
    grow 0 1
    +limits 12 5 0 0 0 0 0 0
    accept 128 20 6
    accept 128 20 5
    reserve 255 1
    reserve 256 1
    +limits 12 5 7 0 0 0 0 0
    reserve-placed 256 8 30 70 1
    reserve-placed 256 7 30 70 1
    reserve 299 1
    reserve 300 1
    release 128
    reserve 129 5
    reserve 128 1
    +limits 4294967295 5 7 0 0 0 0 0
    reserve 127 50
    reserve 127 20
    standing 127

    +limits 70 70 70 70 70 70 70 70
    release 0
    release 127
    release 129
    release 256
    reserve 0 70
    reserve 1 1
    release 0
    reserve 0 71
    offer 0 71
    +limits 71 71 71 71 71 71 71 71
    reserve 0 71
    offer 0 4294967295
    +limits 4294967295 4294967295 4294967295 4294967295 4294967295 4294967295 4294967295 4294967295
    offer 0 4294967295
    reserve 0 1
    offer 1 4294967295
    offer 128 4294967295
    offer 1 4294967294
";

/// 18 comes after 3 and 15, and before 10, 11, 17 and 4 for the count.
const ORDER: &str = "
    +limits 0 0 0 0 0 0 0 0
    reserve 300 1
    reserve 4294967295 0
    +entry 0 0 0 0
    reserve 0 1
    +entry 0 65 0 0
    pause 0
    reserve 0 1
    offer 0 1
    accept 0 0 1
    grow 0 1
    release 0
    grow 0 1
    reserve 0 0
    offer 0 0
    accept 0 0 0
    accept 0 70 1
    reserve 0 71
    offer 0 71
    reserve-placed 0 0 0 71 1
    reserve-placed 0 1 0 71 1
    reserve-placed 0 1 0 70 0
    reserve-placed 0 1 9 9 1
    reserve-placed 0 71 0 70 1
    +limits 5 0 0 0 0 0 0 0
    reserve 0 5
    grow 0 0
    grow 0 66
    grow 0 1
    +limits 4 0 0 0 0 0 0 0
    reserve 1 0
    grow 0 1
    +shape 70 2
    +limits 70 0 0 0 0 0 0 0
    reserve 1 3
    grow 0 3
    accept 1 10 3
    +limits 7 0 0 0 0 0 0 0
    reserve 1 3
    grow 0 3
    accept 1 10 3
    accept 1 4 3
    accept 1 4 2
    +limits 6 0 0 0 0 0 0 0
    accept 1 4 2
";

/// The lengths of Open, Complete and Paused sheets as their entries have them, also of damaged ones, and of none behind the
/// last entry lent.
const HELD: &str = "
    +limits 10 10 10 10 10 10 10 10
    reserve 0 3
    reserve 127 4
    put 127 0 1 496
    put 127 1 1 496
    put 127 2 1 496
    put 127 3 1 496
    complete 127
    offer 5 3
    offer 5 4
    pause 127
    offer 5 3
    offer 5 4
    pause 6
    offer 5 3
    +entry 7 66 4294967295 2
    offer 5 1
    offer 5 2
    +entry 7 79 0 4294967295
    offer 5 1
    grow 0 1
    +limits 4294967295 10 10 10 10 10 10 10
    offer 5 1
    grow 0 1
    +entry 8 0 0 4294967295
    offer 5 1
    +entry 8 65 0 0
    +entry 7 65 0 1
    offer 5 4294967287
    offer 5 4294967288
    +entry 7 65 0 0
    +limits 10 10 10 10 10 10 10 10

    +entry 128 79 0 9
    offer 5 3
    offer 129 1
    offer 129 2
    +lend 2 129 35840
    offer 5 3
    +lend 2 128 35840
    offer 5 3
    offer 5 4
    +entry 126 79 0 9
    offer 5 1
    +lend 2 126 35840
    offer 5 6
    offer 5 8
    +lend 2 300 35840
    +entry 126 65 0 0
    +entry 128 65 0 0
    release 127
    offer 5 7
    release 0
    offer 5 10
    offer 5 11
    +lend 2 1024 35840
    +limits 0 0 0 0 0 0 0 0
    +limits 0 0 0 0 0 0 0 3
    reserve 1023 4
    reserve 1023 3
    reserve 896 1
    reserve 895 1
    release 1023
    reserve 896 3
    release 896
    +lend 2 300 35840
";

/// The forms with a summary; where group 0 refuses, 18 still comes first.
const WITH_SUMMARY: &str = "
    summary-build
    +limits 9 9 9 9 9 9 9 9
    summary-reserve 0 10
    summary-reserve 0 9
    summary-reserve 1 1
    summary-check
    summary-placed 128 10 20 70 1
    summary-placed 128 9 20 70 1
    summary-placed 129 1 20 71 1
    summary-placed 129 1 20 70 1
    summary-accept 256 40 10
    summary-accept 256 40 8
    summary-grow 256 2
    summary-grow 256 1
    summary-grow 256 0
    summary-check
    summary-accept 257 40 1
    summary-release 128
    summary-accept 129 40 1
    summary-accept 129 49 1
    summary-check
    +number 2 0
    summary-reserve 1 1
    summary-reserve 130 1
    summary-reserve 130 9
    summary-build
";
