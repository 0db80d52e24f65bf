//! Lists for the space behind a start (document 02, (b)), which search and both reserves answer: where it ends, that it is
//! measured before the marking, and that it is what could be added to a sheet. A line is a call, or with + what no call does.

pub(super) const LISTS: &[(&str, &str)] = &[
    ("space behind a run", SPACES),
    ("space to grow into", GROWN),
];

/// It ends at n; at a taken block inside a word and at a word's end; past `before`; and is longer than k or k.
const SPACES: &str = "
    search 1
    search 70
    reserve 0 10
    reserve 1 20
    release 0
    search 1
    search 10
    search 11
    search 40
    reserve 2 3
    search 7
    search 8

    reserve-placed 3 4 32 40 8
    search 8
    release 3
    reserve-placed 3 4 36 40 4
    search 4
    search 8
    release 3
    reserve-placed 3 1 69 70 1
    search 8
    release 3
    reserve-placed 3 1 68 69 17
    search 8
    release 3

    reserve-placed 3 1 64 65 64
    search 8
    search 34
    search 35
    release 3
    reserve-placed 3 1 63 64 63
    search 8
    search 34
    release 3
    reserve-placed 3 1 65 66 65
    search 8
    search 35
    search 36
    release 3
    reserve-placed 3 2 62 64 2
    search 8
    release 3
    reserve-placed 3 2 63 65 9
    search 8
    search 6
    release 3
    reserve 3 40
    reserve-placed 0 7 0 10 1
    search 1
";

/// A sheet can grow by the space less its length and by no block more; the free count says nothing of the space.
const GROWN: &str = "
    reserve-placed 0 2 50 60 10
    reserve-placed 1 3 8 16 4
    grow 1 40
    grow 1 39
    grow 1 1
    reserve 2 8
    grow 2 1
    grow 0 19
    grow 0 18
    release 1
    search 42
    search 43

    release 0
    release 2
    reserve-placed 3 1 69 70 69
    reserve 0 1
    grow 0 69
    grow 0 68
    release 0

    +shape 70 3
    search 1
    reserve 0 4
    reserve 0 2
    reserve 1 1
    release 1
    +shape 70 0
    search 68
    search 67
    search 66
";

/// Spaces in words that a card of more than 70 blocks has, over one word's end and over two; bits from n on are not counted.
pub(super) const WORDS: &str = "
    +lend 1 4 512
    fresh 1
    search 1
    reserve 0 1
    release 0
    +lend 3 4 35840
    +shape 192 0
    +word 0 0 1
    +word 1 4294967295 4294967295
    +word 2 2147483648 0
    search 1
    search 66
    search 67
    +word 2 0 0
    search 1
    search 65
    +word 2 4294967295 4294967295
    search 1
    search 129
    +word 2 4294967295 4294967294
    search 1
    search 128

    +word 1 4294967295 4294967294
    search 1
    search 64
    search 63
    +word 1 2147483647 4294967295
    search 1
    search 2
    +word 1 0 1
    search 1
    search 2
    +word 0 4294967295 4294967295
    search 1
    search 65
    +word 1 4294967295 4294967295
    search 1
    +word 2 4294967295 4294967295
    search 1
    search 192
    +shape 191 0
    search 1
    +shape 129 0
    search 1
    +word 0 0 0
    +word 1 0 0
    search 1
    +lend 2 4 35840
    +shape 128 0
    search 1
    +word 1 0 3
    search 1
    +shape 127 0
    search 1
    search 2
";
