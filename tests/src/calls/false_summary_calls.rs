//! Lists for a false summary (document 02, (j)). A line is a call, or with + what no call does. What the request leaves open
//! is no example: no reserve here comes to a search that could find something, and a summary that a call has left is built anew
//! before it is asked for.

pub(super) const LISTS: &[(&str, &str)] = &[("false summaries", FALSE), ("old summaries", OLD)];

/// Where group 0's longest is below k there is no fit, whatever the map holds; the rows before 10 come first. Accept, grow and
/// release answer as without a summary.
const FALSE: &str = "
    summary-build
    +number 2 4
    summary-check
    summary-reserve 0 5
    summary-reserve 0 70
    summary-reserve 0 0
    summary-reserve 4 5
    summary-placed 0 5 0 70 1
    summary-placed 0 5 0 71 1
    summary-placed 0 5 3 3 1
    summary-placed 0 5 0 70 0
    +entry 0 0 0 0
    summary-reserve 0 5
    +entry 0 65 0 0
    summary-check
    summary-accept 0 10 5
    summary-accept 0 30 5
    summary-accept 1 14 1
    summary-accept 1 30 5
    summary-grow 0 15
    summary-grow 0 16
    summary-grow 0 0
    summary-release 1
    summary-release 1
    survey
    summary-build
    summary-check

    +number 2 0
    summary-reserve 1 1
    pause 2
    summary-release 2
    summary-check
    +number 0 4294967295
    +number 1 4294967295
    +number 5 4294967295
    +number 8 4294967295
    summary-check
    summary-accept 1 62 5
    summary-grow 1 4
    summary-grow 1 3
    summary-release 0
    summary-build
    summary-check
";

/// A summary that another call has left behind: it misses the blocks that were released since, and promises those that are
/// taken.
const OLD: &str = "
    summary-build
    summary-reserve 0 70
    summary-check
    release 0
    summary-check
    summary-reserve 0 1
    summary-placed 0 1 0 70 1
    summary-build
    summary-reserve 0 1
    summary-check
    reserve 1 60
    summary-check
    summary-reserve 2 70
    summary-accept 2 60 2
    summary-accept 2 61 9
    summary-release 1
    summary-build
    summary-check
    fresh 70
    summary-check
    summary-build
    summary-check
";
