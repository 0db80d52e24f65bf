//! The figures of document 01 that the headers have to have: constants, structs, macros, texts, the head of an image. Nothing
//! is read from the headers.

use std::collections::HashMap;

/// Blocks, payloads and limits ("Shape, catalogue, blocks"), wings and their sheets (document 02, (k)), roles (document 02,
/// (n)), marks in hex, the number of four bytes of FF, what has to be saved first, and what seal
/// and check give.
const CONSTANTS: [(&str, u64); 27] = [
    ("PAGUNLIT_BLOCK_BYTES", 512),
    ("PAGUNLIT_PAYLOAD_BYTES", 496),
    ("PAGUNLIT_MOST_BLOCKS", 262_144),
    ("PAGUNLIT_MOST_SHEETS", 1_024),
    ("PAGUNLIT_BLOCK", 512),
    ("PAGUNLIT_PAYLOAD", 496),
    ("PAGUNLIT_BLOCKS", 262_144),
    ("PAGUNLIT_SHEETS", 1_024),
    ("PAGUNLIT_WINGS", 8),
    ("PAGUNLIT_WING_SHEETS", 128),
    ("PAGUNLIT_PHARMACIST", 1),
    ("PAGUNLIT_CARER", 2),
    ("PAGUNLIT_SERVICE", 3),
    ("PAGUNLIT_ABSENT", 0x41),
    ("PAGUNLIT_PAUSED", 0x50),
    ("PAGUNLIT_OPEN", 0x4f),
    ("PAGUNLIT_COMPLETE", 0x43),
    ("PAGUNLIT_COUNT_ABSENT", 0xffff_ffff),
    ("PAGUNLIT_SAVE_NOTHING", 0),
    ("PAGUNLIT_SAVE_BEFORE_BLOCKS", 1),
    ("PAGUNLIT_SAVE_FIRST", 2),
    ("BLOCK_SIZE", 512),
    ("PAYLOAD_SIZE", 496),
    ("BLOCK_SEALED", 0),
    ("BLOCK_DAMAGED", 0),
    ("BLOCK_HOLDS", 1),
    ("BLOCK_WRONG_LENGTH", 3),
];

/// The rows of "What the caller gets instead" and those of document 02, with the name that a C program has for each. Number 0
/// is "done".
const NUMBERS: [(u32, &str, &str); 22] = [
    (0, "PAGUNLIT_DONE", "done"),
    (
        1,
        "PAGUNLIT_WRONG_SIZE",
        "n or c is outside its limits; free count above n; a lent map, summary, card or scratch (on load also the catalogue) \
         has the wrong length",
    ),
    (2, "PAGUNLIT_NO_SHEET", "sheet number >= c"),
    (3, "PAGUNLIT_WRONG_ARGUMENT", "k or m is 0; place >= length; a payload, block or show buffer has the wrong length"),
    (4, "PAGUNLIT_DAMAGED", "entry damaged; block not sound; free count contradicts the call; state not sound when saved"),
    (5, "PAGUNLIT_IS_ABSENT", "sheet is Absent and the call doesn't admit that"),
    (6, "PAGUNLIT_IS_PAUSED", "sheet is Paused and the call doesn't admit that"),
    (7, "PAGUNLIT_IS_OPEN", "sheet is Open and the call doesn't admit that"),
    (8, "PAGUNLIT_IS_COMPLETE", "sheet is Complete and the call doesn't admit that"),
    (9, "PAGUNLIT_PLACE_BLANK", "complete: some place is blank"),
    (10, "PAGUNLIT_NO_FIT", "search or reserve: no fit"),
    (11, "PAGUNLIT_CANNOT_GROW", "grow: the m next blocks are not all free and inside n"),
    (12, "PAGUNLIT_IMAGE_LENGTH", "image length"),
    (13, "PAGUNLIT_IMAGE_FRAME", "image frame"),
    (14, "PAGUNLIT_IMAGE_CONTENT", "image content"),
    (15, "PAGUNLIT_WRONG_FIGURES", "placed reserve: step is 0, from >= before or before > n"),
    (16, "PAGUNLIT_WRONG_COUNT", "dose counts: another digit in the four bytes read, a number out of range when writing, or a \
         count number of 124 or more"),
    (17, "PAGUNLIT_RUN_NOT_FREE", "accept: the run is not all free and inside n"),
    (18, "PAGUNLIT_OVER_LIMIT", "the limit of the sheet's wing would be passed"),
    (19, "PAGUNLIT_NO_DATE", "dated show: the date doesn't exist or lies outside the span"),
    (20, "PAGUNLIT_OUTSIDE_TERM", "dated show: the day lies outside the term"),
    (21, "PAGUNLIT_TURNED_AWAY", "an unknown role or a call not in its row"),
];

/// What has no figure in document 01: the version, as a number, 10000 * first + 100 * second + third, and as a text. It stands
/// here a second time, so that nobody changes it, or forgets to, without a note in docs/CHANGES.md.
const VERSION: [(&str, &str); 2] = [
    ("PAGUNLIT_VERSION", "40100"),
    ("PAGUNLIT_VERSION_TEXT", "4.1.0"),
];

/// The shape is n and the free count, an entry a mark, a start and a length, 32 bits each; a day has its number and its date.
const STRUCTS: [(&str, &[&str]); 5] = [
    ("pagunlit_shape", &["blocks", "free"]),
    ("pagunlit_entry", &["mark", "start", "length"]),
    (
        "pagunlit_outcome",
        &["shape", "number", "first", "second", "third"],
    ),
    ("pagunlit_count", &["number", "hundredths"]),
    ("pagunlit_day", &["number", "days", "year", "month", "day"]),
];

/// The names that the headers may have besides functions and types.
pub fn names() -> Vec<&'static str> {
    let constants = CONSTANTS.iter().map(|(name, _)| *name);
    let numbers = NUMBERS.iter().map(|(_, name, _)| *name);
    let macros = [
        "PAGUNLIT_MAP_WORDS",
        "PAGUNLIT_SCRATCH_WORDS",
        "PAGUNLIT_SUMMARY_NUMBERS",
        "PAGUNLIT_IMAGE_BYTES",
    ];
    constants
        .chain(numbers)
        .chain(VERSION.map(|(name, _)| name))
        .chain(macros)
        .collect()
}

/// w = n/64 rounded up, by counting words until they hold n blocks.
fn words(n: u64) -> u64 {
    let mut w = n / 64;
    while 64 * w < n {
        w += 1;
    }
    w
}

/// The words of a scratch (document 02, (h)): 64, or the map's length if that is less.
fn scratch_words(n: u64) -> u64 {
    words(n).min(64)
}

/// The numbers of a summary (document 02, (j)): p is the least power of two not below the words, and 2p - 1 groups have three
/// numbers each, which are counted here level by level, from p groups of one word up to the one of all.
fn summary_numbers(n: u64) -> u64 {
    let mut p = 1;
    while p < words(n) {
        p *= 2;
    }
    let mut groups = p;
    while p > 1 {
        p /= 2;
        groups += p;
    }
    3 * groups
}

/// The image's blocks of 512 bytes, each with 496 of the body: n, free count, c, c entries of 12 bytes, w words of 8.
fn image_bytes(n: u64, c: u64) -> u64 {
    let body = 4 + 4 + 4 + 12 * c + 8 * words(n);
    let mut blocks = body / 496;
    while 496 * blocks < body {
        blocks += 1;
    }
    512 * blocks
}

/// The bytes of the image that figures.c reads.
fn head_byte(i: usize) -> u8 {
    251u8.wrapping_sub((3 * i) as u8)
}

/// The number in four bytes of that image, the high byte first; 0 if it is shorter than a block or they lie behind it.
fn head_number(length: usize, at: usize) -> u64 {
    if length < 512 || at + 4 > 512 {
        return 0;
    }
    (at..at + 4).fold(0, |number, i| 256 * number + head_byte(i) as u64)
}

fn lines_of_constants() -> Vec<(String, String)> {
    let plain = CONSTANTS
        .iter()
        .map(|(name, value)| (name.to_string(), value.to_string()));
    let numbers = NUMBERS
        .iter()
        .map(|(number, name, _)| (name.to_string(), number.to_string()));
    let others = (0..40).chain([u32::MAX]).map(|number| {
        let row = NUMBERS.iter().find(|(other, ..)| *other == number);
        let text = row.map(|(_, _, text)| *text);
        (
            format!("meaning {number}"),
            text.unwrap_or("no number of this library").to_string(),
        )
    });
    plain.chain(numbers).chain(others).collect()
}

fn lines_of_structs() -> Vec<(String, String)> {
    let mut lines = Vec::new();
    for (name, fields) in STRUCTS {
        let mut offset = 0;
        for field in fields {
            let (size, kind) = match *field {
                "shape" => (8, "pagunlit_shape"),
                _ => (4, "uint32_t"),
            };
            lines.push((
                format!("{name}.{field}"),
                format!("offset {offset} size {size} type {kind}"),
            ));
            offset += size;
        }
        lines.push((name.to_string(), format!("size {offset} align 4")));
    }
    lines
}

fn lines_of_macros() -> Vec<(String, String)> {
    let n_of_words = 0..=262_145;
    let word = |n: u64| {
        [
            (format!("PAGUNLIT_MAP_WORDS({n})"), words(n).to_string()),
            (
                format!("PAGUNLIT_SCRATCH_WORDS({n})"),
                scratch_words(n).to_string(),
            ),
        ]
    };
    let summary = |n: u64| {
        (
            format!("PAGUNLIT_SUMMARY_NUMBERS({n})"),
            summary_numbers(n).to_string(),
        )
    };
    let image = |n: u64, c: u64| {
        (
            format!("PAGUNLIT_IMAGE_BYTES({n},{c})"),
            image_bytes(n, c).to_string(),
        )
    };
    let mut lines: Vec<_> = n_of_words.chain([u32::MAX as u64]).flat_map(word).collect();
    lines.extend((1..=262_144).map(summary));
    for n in 0..=5000 {
        lines.extend((0..=1024).step_by(32).map(|c| image(n, c)));
    }
    for c in 0..=1024 {
        lines.extend((0..=80).map(|w| image(64 * w, c)));
        lines.extend([image(262_143, c), image(262_144, c)]);
    }
    lines.extend((0..=4096).map(|w| image(64 * w, 1)));
    lines.push(image(262_144, u32::MAX as u64));
    lines
}

fn lines_of_expressions() -> Vec<(String, String)> {
    let line = |what: &str, value: u64| (what.to_string(), value.to_string());
    let size = |what: &str| (format!("type {what}"), "size_t".to_string());
    vec![
        size("PAGUNLIT_MAP_WORDS"),
        size("PAGUNLIT_SCRATCH_WORDS"),
        size("PAGUNLIT_SUMMARY_NUMBERS"),
        size("PAGUNLIT_IMAGE_BYTES"),
        line("inside PAGUNLIT_MAP_WORDS(1|64)", words(65)),
        line("inside PAGUNLIT_SCRATCH_WORDS(1|64)", scratch_words(65)),
        line("inside PAGUNLIT_SUMMARY_NUMBERS(1|64)", summary_numbers(65)),
        line(
            "inside PAGUNLIT_IMAGE_BYTES(1|4096,1)",
            image_bytes(4097, 1),
        ),
        line(
            "inside PAGUNLIT_IMAGE_BYTES(64,1|128)",
            image_bytes(64, 129),
        ),
        line("outside 128/PAGUNLIT_MAP_WORDS(65)", 128 / words(65)),
        line(
            "outside 128/PAGUNLIT_SCRATCH_WORDS(8192)",
            128 / scratch_words(8192),
        ),
        line(
            "outside 63/PAGUNLIT_SUMMARY_NUMBERS(65)",
            63 / summary_numbers(65),
        ),
        line(
            "outside 4096/PAGUNLIT_IMAGE_BYTES(64,100)",
            4096 / image_bytes(64, 100),
        ),
    ]
}

fn lines_of_heads() -> Vec<(String, String)> {
    let mut lines = Vec::new();
    for length in [0, 1, 11, 12, 19, 20, 496, 511, 512, 513, 1024, 46592] {
        for (name, at) in [("pagunlit_image_blocks", 8), ("pagunlit_image_sheets", 16)] {
            lines.push((
                format!("{name}({length})"),
                head_number(length, at).to_string(),
            ));
        }
    }
    for at in 0..=520 {
        lines.push((
            format!("pagunlit_image_number(512,{at})"),
            head_number(512, at).to_string(),
        ));
    }
    lines
}

fn expected() -> Vec<(String, String)> {
    let version = VERSION.map(|(name, value)| (name.to_string(), value.to_string()));
    [
        version.to_vec(),
        lines_of_constants(),
        lines_of_structs(),
        lines_of_macros(),
        lines_of_expressions(),
        lines_of_heads(),
    ]
    .concat()
}

/// What is wrong in what figures.c printed, and how many figures were compared.
pub fn compare(printed: &str, bits: u32) -> (Vec<String>, usize) {
    let mut found: HashMap<&str, &str> = HashMap::new();
    let mut wrong = Vec::new();
    for line in printed.lines() {
        let (name, value) = line.split_once('\t').unwrap_or((line, ""));
        if found.insert(name, value).is_some_and(|was| was != value) {
            wrong.push(format!("two figures were printed for {name}"));
        }
    }
    if found.remove("end").is_none() {
        wrong.push("figures.c did not come to its end".to_string());
    }
    // A length that the processor's numbers cannot say is not printed.
    let too_long = |value: &str| {
        value
            .parse::<u64>()
            .is_ok_and(|number| number >> (bits - 1) > 1)
    };
    let expected = expected().into_iter().filter(|(_, value)| !too_long(value));
    let expected: HashMap<String, String> = expected.collect();
    for (name, value) in &expected {
        match found.remove(name.as_str()) {
            Some(printed) if printed == value => {}
            Some(printed) => wrong.push(format!("{name} is {printed}, and by document 01 {value}")),
            None => wrong.push(format!(
                "{name} was not printed; by document 01 it is {value}"
            )),
        }
    }
    wrong.extend(
        found.iter().map(|(name, value)| {
            format!("{name} is {value}, and document 01 has no figure for it")
        }),
    );
    wrong.sort_by_key(|line| (line.contains('('), line.clone()));
    (wrong, expected.len())
}
