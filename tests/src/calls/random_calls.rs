//! Random calls.

pub(super) const CALLS: usize = 600;

/// How many more there are whose map-changing calls are lent a summary.
pub(super) const WITH_SUMMARY: usize = 200;

/// How many more there are with limits.
pub(super) const WITH_LIMITS: usize = 300;

/// How many more there are with closings.
pub(super) const WITH_CLOSINGS: usize = 300;

/// How many more there are with roles.
pub(super) const WITH_ROLES: usize = 300;

/// How many more there are for dated shows.
pub(super) const DATED: usize = 300;

/// A number of blocks: mostly 0, 1 or 2, in 1 case of 16 one below 72.
fn random_size(x: u64) -> u64 {
    if x % 16 == 0 {
        x / 16 % 72
    } else {
        (x / 16 % 5 + 1) / 2
    }
}

/// A length, in 1 case of 16 a wrong one.
fn random_length(x: u64) -> u64 {
    if x % 16 == 0 {
        x / 16 % 501
    } else {
        496
    }
}

/// From, before and step: mostly a window of the 70 blocks. In 1 case of 24 before is too large, in 1 of 10 step is 0.
fn random_figures(x: u64) -> String {
    let (from, before, step) = (x % 52, 71 - x / 64 % 24, x / 2048 % 10);
    format!("{from} {before} {step}")
}

/// Where a run starts: on the card, in 1 case of 16 near its end or behind it.
fn random_start(x: u64) -> u64 {
    if x % 16 == 0 {
        x / 16 % 8 + 66
    } else {
        x / 16 % 70
    }
}

/// One of the calls of a list, for one of the four sheets or, in 1 case of 16, for none. Places are below 3.
pub(super) fn random_call(x: u64) -> String {
    let sheet = if x % 16 == 0 { 4 } else { x % 4 };
    let y = x / 1024;
    let (place, z) = (y % 5 % 3, y / 8);
    match x / 16 % 64 {
        0..=4 => format!("reserve {sheet} {}", random_size(y)),
        5..=9 => {
            let figures = random_figures(y / 16384);
            format!("reserve-placed {sheet} {} {figures}", random_size(y))
        }
        10..=11 => format!("grow {sheet} {}", random_size(y)),
        12..=13 => format!("release {sheet}"),
        14 => format!("pause {sheet}"),
        15 => format!("offer {sheet} {}", random_size(y)),
        16..=18 => {
            let start = random_start(y / 16384);
            format!("accept {sheet} {start} {}", random_size(y))
        }
        19..=37 => {
            let first = z / 8192 % 256;
            format!("put {sheet} {place} {first} {}", random_length(z))
        }
        38..=47 => format!("complete {sheet}"),
        48..=59 => format!("show {sheet} {place} {}", random_length(z)),
        60..=61 => format!("resume {sheet}"),
        _ => format!("standing {sheet}"),
    }
}

/// A date of the first days of 2024, in 1 case of 8 another one, of which some do not exist.
fn random_date(x: u64) -> String {
    if x % 8 == 0 {
        let (year, month, day) = (x / 16 % 103 + 1999, x / 2048 % 14, x / 32768 % 33);
        return format!("{year} {month} {day}");
    }
    format!("2024 1 {}", x / 16 % 10 + 1)
}

/// A first day and a last one among the first days of 2024, of which the first has number 8,766; in 1 case of 4 the last one
/// is any.
fn random_term(x: u64) -> String {
    let first = 8766 + x % 4;
    let last = if x / 16 % 4 == 0 {
        x / 64 % 36600
    } else {
        first + x / 64 % 8
    };
    format!("{first} {last}")
}

/// A call of a list that leads to dated shows, for one of the four sheets, which have one place or two.
pub(super) fn random_dated_call(x: u64) -> String {
    let sheet = x % 4;
    let y = x / 1024;
    match x / 16 % 32 {
        0..=3 => format!("reserve {sheet} {}", y % 4 / 3 + 1),
        4 => format!("release {sheet}"),
        5..=12 => format!("put-term {sheet} 0 {}", random_term(y)),
        13..=15 => format!("put {sheet} 1 {} 496", y % 256),
        16..=19 => format!("complete {sheet}"),
        20 => format!("show {sheet} {} 496", y % 2),
        _ => format!("show-dated {sheet} {} {}", y % 5 / 3, random_date(y / 8)),
    }
}

/// A call that limits go with, or a release, for one of two sheets on either side of the first wing's end, or for sheet 0 or
/// 255; in 1 case of 8 other limits for the two wings.
pub(super) fn random_call_with_limits(x: u64) -> String {
    let sheet = [0, 127, 128, 255][x as usize % 4];
    let y = x / 1024;
    match x / 16 % 32 {
        0..=3 => format!("+limits {} {} 0 0 0 0 0 0", y % 40, y / 64 % 40),
        4..=7 => format!("reserve {sheet} {}", y % 20),
        8..=10 => format!(
            "reserve-placed {sheet} {} {}",
            y % 20,
            random_figures(y / 32)
        ),
        11..=13 => format!("offer {sheet} {}", y % 20),
        14..=16 => format!("accept {sheet} {} {}", random_start(y / 32), y % 20),
        17..=20 => format!("grow {sheet} {}", y % 6),
        21..=22 => format!("pause {sheet}"),
        23..=27 => format!("release {sheet}"),
        _ => format!("standing {sheet}"),
    }
}

/// A call of a list, or a closing.
pub(super) fn random_call_or_closing(x: u64) -> String {
    match x / 64 % 8 {
        0 => "close 2".to_string(),
        _ => random_call(x / 512),
    }
}

/// Who makes a call: mostly the pharmacist, else a carer, the service or an unknown role.
fn random_role(x: u64) -> u64 {
    match x % 32 {
        0..=1 => 2,
        2..=3 => 3,
        4 => [0, 4, 4294967295][x as usize / 32 % 3],
        _ => 1,
    }
}

/// A role, and a call of a list. A dated show is a carer's more often than not.
pub(super) fn random_call_by_roles(x: u64) -> (u64, String) {
    let (role, y) = (random_role(x), x / 1024);
    match x / 128 % 8 {
        0 => (1 + y % 3, "survey".to_string()),
        1 => (role, random_call_or_closing(y)),
        2..=3 => {
            let call = format!("show-dated {} 0 2024 1 {}", y % 4, y / 4 % 6 + 3);
            (if y / 64 % 4 == 0 { role } else { 2 }, call)
        }
        _ => (role, random_dated_call(y)),
    }
}
