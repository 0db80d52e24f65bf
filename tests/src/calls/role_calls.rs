//! Lists for who may do what (document 02, (n)): `+role` has the role of the calls that follow, 1 before one is named. A line
//! is a call, or with + what no call does.

use super::on_70;

pub(super) const LISTS: &[(&str, &str)] = &[
    ("roles, a day of each", DAY),
    ("roles, 21 before all other numbers", ORDER),
    ("roles that are unknown", UNKNOWN),
];

/// A pharmacist prescribes, a carer reads, service looks after the card; what each is turned away from.
const DAY: &str = "
    reserve 1 2
    put-term 1 0 8825 8831
    +role 2
    show-dated 1 0 2024 2 29
    put 1 1 2 496
    +role 1
    put 1 1 2 496
    +role 2
    complete 1
    +role 1
    complete 1
    +role 2
    show-dated 1 0 2024 2 29
    show-dated 1 1 2024 3 6
    show-dated 1 1 2024 3 7
    show 1 1 496
    standing 1
    survey
    search 1
    pause 1
    release 1
    +role 3
    show 1 1 496
    show-dated 1 1 2024 2 29
    standing 1
    survey
    put 0 0 1 496
    reserve 0 1
    +role 1
    accept 0 10 3
    +role 2
    close 2
    +role 3
    close 2
    standing 0
    grow 0 1
    fresh 71
    +role 2
    show-dated 1 1 2024 2 29
    fresh 70
    +role 3
    fresh 70
    standing 1
    +role 1
    standing 1
";

/// A call turned away is told 21, whatever else is wrong, and leaves a scratch of zeros.
const ORDER: &str = "
    reserve 1 1
    put-term 1 0 8825 8831
    complete 1
    summary-build
    +role 2
    reserve 4 0
    reserve 1 1
    reserve-placed 0 0 9 9 0
    accept 0 70 1
    put 1 9 0 0
    show 1 1 0
    show 4 9 495
    grow 1 71
    release 0
    resume 4
    search 0
    search 71
    close 0
    close 2
    summary-close 3
    summary-close 2
    summary-build
    summary-check
    standing 4
    show-dated 1 9 2024 2 30
    show-dated 1 0 2024 2 30
    +role 3
    show-dated 1 9 2024 2 30
    show-dated 4 9 2024 2 30
    close 1
    close 2
    summary-close 2
    summary-check
    offer 4 0
    +role 1
    summary-check
    +byte 100 1
    +role 2
    show-dated 1 0 2024 2 29
    +role 3
    show-dated 1 0 2024 2 29
    +entry 1 0 0 0
    show-dated 1 0 2024 2 29
    close 2
    standing 1
    +role 2
    close 2
    standing 1
    +role 1
    close 2
";

/// No other number is a role.
const UNKNOWN: &str = "
    reserve 1 1
    +role 0
    standing 1
    survey
    fresh 70
    release 1
    +role 4
    standing 1
    survey
    close 2
    release 1
    +role 256
    standing 1
    +role 257
    standing 1
    release 1
    +role 65537
    release 1
    +role 2147483649
    release 1
    +role 4294967295
    standing 1
    survey
    fresh 70
    release 1
    +role 1
    standing 1
    release 1
";

/// Each call with arguments with which the pharmacist's is done on the card of `CARD`. Those that a role may make change the
/// card last.
const EVERY: &str = "
    search 1
    show-dated 2 0 2024 2 29
    show 2 0 496
    standing 2
    survey
    offer 0 2
    summary-check
    summary-build
    reserve 0 2
    reserve-placed 0 2 5 60 9
    accept 0 20 2
    put 1 0 7 496
    grow 1 1
    complete 1
    pause 2
    resume 3
    release 2
    summary-reserve 0 2
    summary-placed 0 2 5 60 9
    summary-accept 0 20 2
    summary-grow 1 1
    summary-release 2
    close 2
    summary-close 2
    standing 2
    fresh 70
    standing 2
";

/// Sheet 0 is Absent, sheet 1 Open with one place, which is filled, sheet 2 Complete with a term, sheet 3 a paused course.
const CARD: &str = "
    +role 1
    accept 1 5 1
    put 1 0 1 496
    accept 2 30 1
    put-term 2 0 8825 8831
    complete 2
    accept 3 50 1
    put 3 0 3 496
    complete 3
    pause 3
    summary-build
";

/// Each call by each role but the pharmacist's, and by some that are unknown.
pub(super) fn every_call() -> String {
    [2, 3, 0, 4, 4294967295u32]
        .map(|role| format!("+role 1\n{}+role {role}\n{EVERY}+role 1\n", on_70(CARD)))
        .concat()
}

#[cfg(test)]
mod tests {
    use super::*;
    use crate::call::CALLS;
    use crate::calls::has_call;

    #[test]
    fn every_call_is_in_the_list() {
        for (_, name, _) in CALLS {
            assert!(has_call(EVERY, name), "{name}");
        }
    }
}
