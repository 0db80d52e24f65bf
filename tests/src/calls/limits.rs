//! Examples at the limits of numbers and lengths: fresh, search and survey, the ends of words and of catalogues, row 1.

use super::on_70;

/// Numbers of blocks and of sheets within and outside their limits, and maps of another length.
pub(super) fn fresh() -> String {
    let sizes = [
        0,
        1,
        63,
        64,
        65,
        70,
        127,
        128,
        129,
        192,
        193,
        262144,
        262145,
        4294967295u32,
    ];
    let mut text = String::new();
    for words in 0..=3 {
        text += &format!("+lend {words} 4 35840\n");
        for n in sizes {
            text += &format!("+word 2 1 4294967295\nfresh {n}\n");
        }
    }
    for sheets in [0, 1025, 1024, 1, 4] {
        text += &format!("+entry 3 79 0 1\n+lend 2 {sheets} 35840\nfresh 70\n");
    }
    text + "+lend 2 4 0\nfresh 70\n"
}

const SEARCHES: &str = "
    search 0
    search 1
    search 10
    search 11
    search 40
    search 41
    search 70
    search 71
    search 4294967295
    survey
";

pub(super) fn searches() -> String {
    let runs = "
        reserve 0 10
        reserve 1 20
        release 0
    ";
    let none = "
        reserve 2 40
        reserve 3 10
    ";
    let bits_from_n_on = "
        fresh 70
        +word 1 67108863 4294967295
        +shape 70 0
    ";
    let only_those = "
        +shape 70 70
        +word 0 0 0
    ";
    [
        "+lend 2 4 35840\nfresh 70\n",
        SEARCHES,
        runs,
        SEARCHES,
        none,
        SEARCHES,
        bits_from_n_on,
        SEARCHES,
        only_those,
        SEARCHES,
        "reserve 0 1\nfresh 70\n",
    ]
    .concat()
}

/// Each call. The sheets 0 and 2 are Absent before, sheet 1 is Complete.
const EACH: &str = "
    search 0
    survey
    standing 4
    reserve 0 2
    put 0 1 3 496
    grow 0 1
    complete 1
    show 1 0 496
    pause 2
    release 2
    release 0
    reserve-placed 0 2 5 60 9
    release 0
    offer 0 2
    accept 0 5 2
    release 0
    pause 1
    resume 1
";

/// Each call that is lent a summary. The sheets stand as for the others.
const EACH_WITH_SUMMARY: &str = "
    summary-build
    summary-check
    summary-reserve 0 2
    summary-grow 0 1
    summary-release 0
    summary-placed 0 2 5 60 9
    summary-release 0
    summary-accept 0 5 2
    summary-release 0
    summary-check
";

/// A dated show of a Complete sheet, and of none.
const EACH_DATED: &str = "
    show-dated 1 0 2024 2 29
    show-dated 1 0 2024 2 28
    show-dated 4 0 2024 2 29
";

/// A closing, without a summary and with one.
const EACH_CLOSING: &str = "
    close 2
    summary-close 2
    close 1
    summary-close 1
    accept 0 9 2
    close 2
    summary-release 0
";

/// Too few or too many words, entries and bytes lent, and shapes outside their limits, and at them.
fn lent_and_shapes(put: &str, each: &str) -> String {
    let start = format!(
        "
        reserve 1 1
        {put}
        complete 1
    "
    );
    let lent = [
        "1 4 35840",
        "3 4 35840",
        "0 4 35840",
        "2 4 35839",
        "2 4 35841",
        "2 4 0",
        "2 0 35840",
        "2 1025 35840",
        "2 1024 35840",
        "2 4 35840",
    ];
    let shapes = [
        "0 0",
        "262145 0",
        "4294967295 0",
        "70 71",
        "70 4294967295",
        "64 60",
        "65 60",
        "128 60",
        "70 69",
    ];
    let mut text = on_70(&start);
    for lent in lent {
        text += &format!("+lend {lent}\n{each}");
    }
    for shape in shapes {
        text += &format!("+shape {shape}\n{each}");
    }
    text
}

pub(super) fn row_1() -> String {
    lent_and_shapes("put 1 0 1 496", EACH)
}

pub(super) fn row_1_dated() -> String {
    lent_and_shapes("put-term 1 0 8825 8831", EACH_DATED)
}

pub(super) fn row_1_of_closing() -> String {
    let mut text = lent_and_shapes("put 1 0 1 496", EACH_CLOSING);
    for numbers in [0, 1, 3, 8, 10, 12, 21, 22, 9] {
        text += &format!("+summary {numbers}\n{EACH_CLOSING}");
    }
    text
}

/// Each call by a role that may make it and by one that may not: 21 comes before row 1.
const EACH_BY_ROLES: &str = "
    +role 2
    survey
    standing 1
    show-dated 1 0 2024 2 29
    show 1 0 496
    close 2
    +role 3
    survey
    standing 1
    close 1
    show-dated 1 0 2024 2 29
    release 1
    +role 0
    survey
    close 2
    +role 1
";

pub(super) fn row_1_of_roles() -> String {
    lent_and_shapes("put-term 1 0 8825 8831", EACH_BY_ROLES)
}

/// Besides, too few or too many numbers of a summary lent: none, one less and one more, and those of one word and of three.
pub(super) fn row_1_with_summary() -> String {
    let mut text = lent_and_shapes("put 1 0 1 496", EACH_WITH_SUMMARY);
    for numbers in [0, 1, 3, 8, 10, 12, 21, 22, 9] {
        text += &format!("+summary {numbers}\n{EACH_WITH_SUMMARY}");
    }
    text
}

/// Cards that end before, at and after the end of a word, and sheets that cross it.
pub(super) const BOUNDARIES: &str = "
    +lend 1 4 32256
    fresh 63
    search 63
    search 64
    reserve 0 63
    reserve 1 1
    survey
    release 0
    +lend 1 4 32768
    fresh 64
    search 64
    search 65
    reserve 0 63
    grow 0 1
    grow 0 1
    standing 0
    survey
    +lend 2 4 33280
    fresh 65
    search 65
    search 66
    reserve 0 64
    grow 0 1
    put 0 64 1 496
    grow 0 1
    survey
    release 0

    +lend 2 4 35840
    fresh 70
    reserve 0 63
    reserve 1 1
    reserve 2 1
    standing 1
    standing 2
    put 1 0 1 496
    put 2 0 2 496
    complete 1
    complete 2
    show 1 0 496
    show 2 0 496
    release 1
    search 1
    search 2
    release 2
    search 7
    reserve 3 2
    standing 3
    put 3 1 3 496
    put 3 0 3 496
    complete 3
    show 3 0 496
    show 3 1 496
    survey
    release 3
    release 0
    survey
";

/// The last sheet of a catalogue, and the entry behind it.
pub(super) const SHEETS: &str = "
    +lend 2 1 35840
    fresh 70
    reserve 0 1
    reserve 1 1
    standing 0
    standing 1
    +entry 1 79 0 1
    standing 1
    release 1
    +lend 2 1024 35840
    fresh 70
    reserve 1023 3
    reserve 1024 3
    pause 1022
    pause 1024
    put 1023 2 5 496
    complete 1023
    standing 1023
    release 1022
    release 1023
    standing 1023
";

#[cfg(test)]
mod tests {
    use super::*;
    use crate::call::{CALLS, Kind};
    use crate::calls::has_call;

    /// Fresh has a list of its own: it takes the blocks and reads no shape.
    #[test]
    fn every_call_is_in_a_list() {
        let all = [EACH, EACH_WITH_SUMMARY, EACH_DATED, EACH_CLOSING].concat();
        for (kind, name, _) in CALLS {
            assert!(kind == Kind::Fresh || has_call(&all, name), "{name}");
        }
    }
}
