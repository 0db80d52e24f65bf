//! The calls of a card that are lent a summary (document 02, (j)).

use super::*;
use crate::call::{accept, call, placed, Search};
use crate::summary::build;

/// A card of 100 blocks and 4 sheets with its own summary: sheet 0 is Open from 10 to 29, sheet 1 Open from 60 to 64, the
/// others are Absent. Free runs are 10, 30 and 35 blocks long.
fn card() -> Card {
    let mut card = Card {
        n: 100,
        free: 75,
        map: (0..128).map(|b| b < 100).collect(),
        sheets: vec![entry(OPEN, 10, 20), entry(OPEN, 60, 5), ABSENT, ABSENT],
        bytes: vec![7; BLOCK * 100],
        summary: Vec::new(),
    };
    card.map[10..30].fill(TAKEN);
    card.map[60..65].fill(TAKEN);
    card.summary = build(&card.map, 100);
    card
}

/// The calls that change the map, each once accepted and once refused.
fn calls() -> [Call; 10] {
    [
        call(Kind::Reserve, 2, 11),
        call(Kind::Reserve, 2, 36),
        placed(2, 11, figures(31, 100, 8)),
        placed(2, 11, figures(31, 50, 8)),
        accept(2, 66, 34),
        accept(2, 66, 35),
        call(Kind::Grow, 0, 30),
        call(Kind::Grow, 0, 31),
        call(Kind::Release, 1, 0),
        call(Kind::Release, 3, 0),
    ]
}

/// Group 0 of that card.
#[test]
fn group_0_of_the_card() {
    assert_eq!(card().summary[..3], [10, 0, 35]);
}

/// A summary as a call with it leaves it, after a change of one number or of all; none of these is the map's own.
fn spoiled() -> Vec<Vec<u32>> {
    let own = card().summary;
    let mut all: Vec<Vec<u32>> = (0..own.len())
        .map(|at| {
            let mut one = own.clone();
            one[at] += 1;
            one
        })
        .collect();
    all.extend([vec![100; own.len()], vec![u32::MAX; own.len()]]);
    all
}

/// "Every list whose map-changing calls are these forms [..] answers as without it, and the summary ends as one built anew"; a
/// refusal leaves it.
#[test]
fn with_a_true_summary() {
    for call in calls() {
        let (mut without, mut with) = (card(), card());
        let answer = without.call(call, &mut []);
        assert_eq!(with.call(call.with_summary(), &mut []), answer, "{call}");
        assert!(with.has_own_summary());
        without.summary = with.summary.clone();
        assert!(with == without, "{call}");
        let refused = matches!(answer, Refused(_));
        assert_eq!(with.summary == card().summary, refused, "{call}");
    }
}

/// With a false summary accept, grow and release answer and leave all but the summary as without it, and a refusal leaves that
/// too.
#[test]
fn accept_grow_and_release_with_a_false_summary() {
    for summary in spoiled() {
        for call in &calls()[4..] {
            let (mut without, mut with) = (card(), card());
            with.summary = summary.clone();
            assert!(!with.leaves_search_open(call.with_summary()));
            let answer = without.call(*call, &mut []);
            assert_eq!(with.call(call.with_summary(), &mut []), answer, "{call}");
            if matches!(answer, Refused(_)) {
                assert!(with.summary == summary);
            }
            without.summary = with.summary.clone();
            assert!(with == without, "{call}");
        }
    }
}

/// "Where group 0's longest is below k, a reserve's search gives no fit, whatever the map holds."
#[test]
fn group_0_refuses() {
    let plain = |k| call(Kind::ReserveWithSummary, 2, k);
    let placed = |k| placed(2, k, figures(30, 100, 1)).with_summary();
    for k in 1..=35 {
        for reserve in [plain(k), placed(k)] {
            let mut card = card();
            card.summary = vec![k - 1; 9];
            let before = card.clone();
            assert!(!card.leaves_search_open(reserve));
            assert_eq!(card.call(reserve, &mut []), Refused(10), "{reserve}");
            assert!(card == before);
            // The rows before 10 come first.
            card.sheets[2] = entry(PAUSED, 0, 0);
            assert_eq!(card.call(reserve, &mut []), Refused(6));
        }
    }
}

/// Of a false summary that does not refuse, the end of the search is open: none, or any start that is a fit.
#[test]
fn starts_that_may_be_granted() {
    for summary in spoiled() {
        for (reserve, starts) in [
            (call(Kind::Reserve, 2, 31), 65..70),
            (call(Kind::Reserve, 2, 35), 65..66),
            (placed(2, 5, figures(50, 68, 1)), 50..56),
            (placed(2, 3, figures(50, 70, 60)), 0..0),
            (placed(2, 3, figures(50, 70, 66)), 66..67),
        ] {
            let mut card = card();
            card.summary = summary.clone();
            let reserve = reserve.with_summary();
            assert!(card.leaves_search_open(reserve), "{reserve}");
            let granted: Vec<usize> = (0..200).filter(|s| card.may_grant(reserve, *s)).collect();
            assert_eq!(granted, starts.clone().collect::<Vec<_>>(), "{reserve}");
            for start in granted {
                let mut card = card.clone();
                let ended = reserve.with_search(Search::Ended(Some(start)));
                let space = if start < 60 { 60 - start } else { 100 - start };
                assert_eq!(card.call(ended, &mut []), Start(start, space));
                assert_eq!(card.sheets[2], entry(OPEN, start as u32, reserve.number));
            }
            let before = card.clone();
            let ended = reserve.with_search(Search::Ended(None));
            assert_eq!(card.call(ended, &mut []), Refused(10));
            assert!(card == before);
        }
    }
}

/// Only with a false summary, and only if the call comes to the search, is its end open.
#[test]
fn searches_that_are_not_open() {
    let reserve = call(Kind::ReserveWithSummary, 2, 5);
    assert!(!card().leaves_search_open(reserve));
    let mut card = card();
    card.summary[7] += 1;
    assert!(card.leaves_search_open(reserve));
    for other in [
        call(Kind::Reserve, 2, 5),
        call(Kind::ReserveWithSummary, 0, 5),
        call(Kind::ReserveWithSummary, 4, 5),
        call(Kind::ReserveWithSummary, 2, 0),
        call(Kind::ReserveWithSummary, 2, 36),
        placed(2, 5, figures(0, 101, 1)).with_summary(),
        accept(2, 0, 5).with_summary(),
        call(Kind::Offer, 2, 5),
        call(Kind::Search, 0, 5),
    ] {
        assert!(!card.leaves_search_open(other), "{other}");
    }
    card.summary.push(0);
    assert!(!card.leaves_search_open(reserve));
}

/// After a call with a false summary the groups above changed words are open, the others stay.
#[test]
fn groups_that_are_open() {
    let mut card = card();
    card.summary = vec![50; 9];
    let before = card.map.clone();
    let call = accept(2, 66, 3).with_summary();
    assert_eq!(card.call(call, &mut []), Start(66, 34));
    card.take_open_groups(&before, &[1, 2, 3, 4, 5, 6, 7, 8, 9]);
    assert_eq!(card.summary, [1, 2, 3, 50, 50, 50, 7, 8, 9]);
    let now = card.map.clone();
    card.take_open_groups(&now, &[0; 9]);
    assert_eq!(card.summary, [1, 2, 3, 50, 50, 50, 7, 8, 9]);
}

/// "A check call says yes exactly if a summary is the map's own."
#[test]
fn builds_and_checks() {
    let (build, check) = (
        call(Kind::SummaryBuild, 0, 0),
        call(Kind::SummaryCheck, 0, 0),
    );
    for summary in spoiled() {
        let mut card = card();
        card.summary = summary.clone();
        assert_eq!(card.call(check, &mut []), Own(false));
        assert!(card.summary == summary);
        assert_eq!(card.call(build, &mut []), Done);
        assert!(card == self::card());
        assert_eq!(card.call(check, &mut []), Own(true));
    }
}

/// "A summary of the wrong length is 1", before all other numbers; and no call without one looks at it.
#[test]
fn summaries_of_the_wrong_length() {
    for length in (0..30).filter(|length| *length != 9) {
        let mut card = card();
        card.summary.resize(length, 5);
        let before = card.clone();
        let others = [
            call(Kind::SummaryBuild, 0, 0),
            call(Kind::SummaryCheck, 0, 0),
        ];
        let forms = calls().map(|call| call.with_summary());
        for call in forms.into_iter().chain(others) {
            assert_eq!(card.call(call, &mut []), Refused(1), "{call}, {length}");
            assert_eq!(card.first(call), Some(Row::SummaryLength));
            assert!(card == before);
        }
        assert_eq!(card.call(calls()[0], &mut []), Start(30, 30));
    }
}
