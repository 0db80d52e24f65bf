//! Runs calls through the C library (target/staticlib/libpagunlit.a) beside the ledger and the card of document 01, worked
//! out bit by bit (the package bitwise), and compares after every call its answer and every byte that it was lent.
//!
//!     outside check [SEED]          the same calls in every run, in a minute or two
//!     outside for SECONDS [SEED]    as many lists as the time allows
//!     outside cuts [SECONDS [SEED]] the power cuts alone
//!     outside valgrind [SEED]       few lists, on small cards, with nothing around what is lent
//!     outside again PART SEED       one list again, as a failure names it
//!     outside examples calls|map     what comes of the worked examples of the list on standard input
//!     outside library               the sha256 checksum of the archive that it is linked with

mod beside;
mod carer;
mod caught;
mod closing;
mod counts;
mod cut_lists;
mod cut_saves;
mod cut_shows;
mod cuts;
mod damage;
mod dated;
mod dates;
mod days;
mod dispenser;
mod doses;
mod edges;
mod examples;
mod figures;
mod flaws;
mod generate;
mod images;
mod images_together;
mod lengths;
mod library;
mod lists;
mod numbers;
mod offers;
mod pauses;
mod placed;
mod roles;
mod shares;
mod singles;
mod spaces;
mod spoiled;
mod states;
mod summaries;
mod together;
mod windows;

use counts::Counts;
use std::time::{Duration, Instant};

/// Makes the list of a seed, with a margin around what is lent.
type List = fn(u64, usize, &mut Counts) -> Result<(), String>;

struct Part {
    name: &'static str,
    list: List,
    /// How many lists there are of it: in a check, between two looks at the clock, and under valgrind.
    check: u64,
    turn: u64,
    valgrind: u64,
}

const fn part(name: &'static str, list: List, check: u64, turn: u64, valgrind: u64) -> Part {
    Part {
        name,
        list,
        check,
        turn,
        valgrind,
    }
}

/// Parts whose answers are counted in one table.
struct Group {
    parts: &'static [Part],
    report: fn(&Counts) -> Result<(), String>,
}

#[rustfmt::skip]
const GROUPS: &[Group] = &[
    // Lists from a fresh card.
    Group {
        parts: &[
            part("small", lists::small, 2000, 200, 40),
            part("full", lists::full, 2, 1, 0),
            part("summary", lists::small_with_summary, 1000, 100, 60),
            part("summary-full", lists::full_with_summary, 1, 1, 0),
            part("wings", lists::wings, 400, 40, 8),
            part("some-wings", shares::some_of_each_wing, 20, 2, 4),
            part("each-wing", |_, margin, counts| shares::each_wing(margin, counts), 1, 0, 0),
        ],
        report: |counts| {
            counts.report(false)?;
            let kinds = offers::expected().chain(pauses::expected());
            let kinds = kinds.chain(roles::expected_in_lists());
            counts.report_kinds(kinds.chain(shares::expected()))
        },
    },
    // States that no list leads to.
    Group {
        parts: &[
            part("damaged", damage::damaged, 20000, 2000, 1500),
            part("damaged-full", damage::damaged_full, 2, 1, 0),
            part("lengths", |_, margin, counts| lengths::lengths(margin, counts), 1, 0, 0),
            part("limits", |_, margin, counts| lengths::limits(margin, counts), 1, 0, 0),
            part("states", |_, margin, counts| states::states(3, margin, counts), 1, 0, 0),
        ],
        report: |counts| counts.report(true),
    },
    // Placed reserves with figures of every kind, and the spaces behind their starts.
    Group {
        parts: &[
            part("placed", placed::placed, 20000, 2000, 500),
            part("placed-full", placed::placed_full, 3, 1, 0),
            part("placed-all", |_, margin, counts| placed::all_figures(margin, counts), 1, 0, 0),
            part("steps", spaces::steps, 100, 20, 4),
            part("steps-full", spaces::steps_full, 1, 1, 0),
            part("whole-cards", |_, margin, counts| spaces::whole_cards(margin, counts), 1, 0, 0),
        ],
        report: |counts| counts.report_kinds(placed::expected()),
    },
    // Dated shows of every day, date and term.
    Group {
        parts: &[
            part("dated", dated::dated, 5000, 500, 300),
            part("every-day", |_, margin, counts| dated::every_day(margin, counts), 1, 0, 0),
            part("edges", |_, margin, counts| dated::edges(margin, counts), 1, 0, 0),
            part("dates", |_, margin, counts| dated::dates(margin, counts), 1, 0, 0),
            part("written", dated::written, 20, 10, 1),
            part("all-dates", |_, margin, counts| dated::all_numbers(margin, counts), 0, 0, 0),
        ],
        report: |counts| counts.report_kinds(dated::expected()),
    },
    // Closings of every kind of state.
    Group {
        parts: &[
            part("closings", closing::closings, 5000, 500, 100),
            part("close-full", closing::full, 2, 1, 0),
            part("close-states", |_, margin, counts| closing::all_states(margin, counts), 1, 0, 0),
            part("close-places", |_, margin, counts| closing::all_places(margin, counts), 1, 0, 0),
            part("close-windows", |_, margin, counts| closing::at_windows(margin, counts), 1, 0, 0),
            part("close-scratch", |_, margin, counts| closing::scratches(margin, counts), 1, 0, 0),
        ],
        report: |counts| counts.report_kinds(closing::expected()),
    },
    // Who may do what, and what a carer can learn.
    Group {
        parts: &[
            part("roles", roles::every_call, 20, 5, 1),
            part("service", roles::service, 1000, 100, 20),
            part("carer", carer::learns, 5000, 500, 100),
        ],
        report: |counts| counts.report_kinds(roles::expected().chain(carer::expected())),
    },
    // Offers and accepts of all runs, and runs that start and end beside the ends of words: marked, and tested.
    Group {
        parts: &[
            part("runs", |_, margin, counts| offers::all_runs(margin, counts), 1, 0, 0),
            part("word-edges", |_, margin, counts| edges::runs(margin, counts), 1, 1, 0),
        ],
        report: |counts| counts.report_kinds(edges::expected()),
    },
    // Calls with a true or a false summary, and the build and the check of summaries.
    Group {
        parts: &[
            part("spoiled", spoiled::spoiled, 10000, 1000, 300),
            part("spoiled-full", spoiled::spoiled_full, 6, 1, 0),
            part("spoiled-all", |_, margin, counts| spoiled::all_summaries(margin, counts), 1, 0, 0),
            part("sizes", summaries::every_size, 2, 1, 0),
            part("largest", summaries::largest, 2, 1, 0),
            part("each-number", summaries::each_number, 2, 1, 0),
        ],
        report: |counts| {
            spoiled::LEFT_OPEN.iter().for_each(|kind| counts.print_kind(kind));
            counts.report_kinds(spoiled::expected())
        },
    },
    // Seal and check.
    Group {
        parts: &[
            part("singles", singles::single, 20000, 2000, 500),
            part("one-byte", caught::one_byte, 4, 1, 0),
            part("trades", caught::trades, 20, 10, 1),
            part("two-bytes", caught::two_bytes, 1000, 100, 1),
            part("three-bytes", |_, _, counts| caught::three_bytes(counts), 1, 0, 0),
        ],
        report: |_| Ok(()),
    },
    // Dose counts.
    Group {
        parts: &[
            part("digits", |_, margin, counts| doses::digits(margin, counts), 1, 0, 0),
            part("payloads", |_, margin, counts| doses::lengths(margin, counts), 1, 0, 0),
            part("doses", doses::random, 200, 100, 10),
            part("numbers", doses::numbers, 2, 1, 0),
            part("all-numbers", |_, _, counts| doses::all_numbers(counts), 0, 0, 0),
        ],
        report: |_| Ok(()),
    },
    // Numbers that differ in a few bits from what they are compared with.
    Group {
        parts: &[
            part("other-calls", numbers::of_calls, 8, 2, 0),
            part("other-blocks", |_, margin, counts| numbers::of_blocks(margin, counts), 1, 1, 0),
            part("other-summary", |_, margin, counts| numbers::of_summaries(margin, counts), 1, 1, 0),
            part("other-images", |_, margin, counts| numbers::of_images(margin, counts), 1, 1, 0),
            part("other-doses", |_, margin, counts| numbers::of_doses(margin, counts), 1, 1, 0),
        ],
        report: |counts| counts.report_kinds(numbers::expected()),
    },
    // The calendar for C.
    Group {
        parts: &[
            part("every-number", |_, _, counts| days::every_day(counts), 1, 0, 0),
            part("days", days::random, 200, 100, 10),
        ],
        report: |_| Ok(()),
    },
    // Two rows or more that hold at once.
    Group {
        parts: &[
            part("together", together::together, 100, 10, 1),
            part("images-together", images_together::images_together, 100, 10, 2),
        ],
        report: |_| Ok(()),
    },
    // Power cuts.
    Group {
        parts: &[
            part("cuts", cuts::kept, 1500, 200, 2),
            part("cuts-broken", cuts::broken, 200, 20, 1),
            part("cuts-worked", |_, margin, counts| cut_lists::worked(margin, counts), 1, 0, 1),
        ],
        report: cuts::report,
    },
    // Save and load.
    Group {
        parts: &[
            part("images", images::images, 2000, 200, 60),
            part("bytes", images::image_bytes, 20, 1, 0),
            part("cut", |_, margin, counts| images::image_lengths(margin, counts), 1, 0, 0),
            part("before", |_, margin, counts| images::from_before(margin, counts), 1, 0, 1),
            part("full-image", images::full_image, 1, 1, 0),
            part("windows", |_, margin, counts| windows::windows(margin, counts), 1, 0, 0),
        ],
        report: Counts::report_images,
    },
];

const MARGIN: usize = 64;

/// The lists of a part from a seed on: list number i is that of seed + i.
fn run(part: &Part, from: u64, count: u64, margin: usize, counts: &mut Counts) {
    let begin = Instant::now();
    let before = counts.calls;
    for seed in from..from + count {
        if let Err(error) = (part.list)(seed, margin, counts) {
            eprintln!("{error}");
            eprintln!(
                "outside: FAILED: run it again with: outside again {} {seed}",
                part.name
            );
            std::process::exit(1);
        }
    }
    let calls = counts.calls - before;
    let seconds = begin.elapsed().as_secs_f64();
    println!(
        "{:<15} {count:>5} from seed {from}: {calls} calls in {seconds:.1} s",
        part.name
    );
}

/// A group of which nothing ran has nothing to tell.
fn report(group: &Group, counts: &Counts) {
    if counts.calls == 0 {
        return;
    }
    if let Err(error) = (group.report)(counts) {
        eprintln!("outside: FAILED: {error}");
        std::process::exit(1);
    }
}

/// Each part as often as `count` says.
fn run_all(seed: u64, margin: usize, count: fn(&Part) -> u64) -> Counts {
    let mut total = Counts::default();
    for group in GROUPS {
        let counts = &mut Counts::default();
        for part in group.parts.iter().filter(|part| count(part) > 0) {
            run(part, seed, count(part), margin, counts);
        }
        report(group, counts);
        total.add_pairs(counts);
    }
    total
}

/// The parts by turns until the time is up.
fn run_for(time: Duration, mut seed: u64) -> Counts {
    let begin = Instant::now();
    let mut counts: Vec<Counts> = GROUPS.iter().map(|_| Counts::default()).collect();
    while begin.elapsed() < time {
        for (group, counts) in GROUPS.iter().zip(&mut counts) {
            for part in group.parts.iter().filter(|part| part.turn > 0) {
                run(part, seed, part.turn, MARGIN, counts);
            }
        }
        seed += 10000;
    }
    let mut total = Counts::default();
    for (group, counts) in GROUPS.iter().zip(&counts) {
        report(group, counts);
        total.add_pairs(counts);
    }
    total
}

/// The power cuts alone, as many as the time allows.
fn run_cuts(time: Duration, mut seed: u64) {
    let group = GROUPS
        .iter()
        .find(|group| group.parts[0].name == "cuts")
        .expect("the cuts are a group");
    let (begin, counts) = (Instant::now(), &mut Counts::default());
    run(&group.parts[2], seed, 1, MARGIN, counts);
    while begin.elapsed() < time {
        for part in group.parts.iter().filter(|part| part.turn > 0) {
            run(part, seed, part.turn, MARGIN, counts);
        }
        seed += 10000;
    }
    report(group, counts);
}

/// Every pair of rows that can hold at once must have been met.
fn report_pairs(counts: Counts) {
    if let Err(error) = counts.report_pairs() {
        eprintln!("outside: FAILED: {error}");
        std::process::exit(1);
    }
}

fn usage() -> ! {
    eprintln!(
        "usage: outside check [SEED] | for SECONDS [SEED] | cuts [SECONDS [SEED]] | valgrind [SEED] | again PART SEED \
         | examples calls|map | library"
    );
    std::process::exit(2);
}

fn main() {
    let words: Vec<String> = std::env::args().skip(1).collect();
    let number = |at: usize| match words.get(at) {
        None => 1,
        Some(word) => word.parse().unwrap_or_else(|_| usage()),
    };
    match (words.first().map(String::as_str), words.get(1)) {
        (Some("library"), _) => {
            println!("{}", env!("ARCHIVE_SHA256"));
            return;
        }
        (Some("examples"), Some(set)) => {
            let list = std::io::read_to_string(std::io::stdin()).expect("a list of examples");
            print!(
                "{}",
                examples::outcomes(set, &list).unwrap_or_else(|| usage())
            );
            return;
        }
        (Some("check"), _) => report_pairs(run_all(number(1), MARGIN, |part| part.check)),
        (Some("valgrind"), _) => drop(run_all(number(1), 0, |part| part.valgrind)),
        (Some("for"), Some(_)) => report_pairs(run_for(Duration::from_secs(number(1)), number(2))),
        (Some("cuts"), None) => run_cuts(Duration::from_secs(20), 1),
        (Some("cuts"), Some(_)) => run_cuts(Duration::from_secs(number(1)), number(2)),
        (Some("again"), Some(name)) => {
            let mut parts = GROUPS.iter().flat_map(|group| group.parts);
            let part = parts
                .find(|part| part.name == name)
                .unwrap_or_else(|| usage());
            run(part, number(2), 1, MARGIN, &mut Counts::default());
        }
        _ => usage(),
    }
    println!("outside: passed");
}
