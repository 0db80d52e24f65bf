//! The worked examples of the calls: a list with a line for each call and for each change that no call makes
//! (tests/examples/calls.list), and what comes of each (tests/examples/calls.outcomes). In a line of the outcomes:
//! ```text
//!     reserve 0 5       the call: sheet, then k, m or the place, then for a payload its first byte and its length, and for a
//!                       show buffer its length; for fresh n; for reserve-placed sheet, k, from, before and step;
//!                       for show-dated sheet, place, year, month and day; for put-term, a put whose payload starts with the
//!                       two days of a term, sheet, place, first and last day; for close how many words of the scratch are lent
//!     : 0 12            document 01's number of the answer and its values; 0 is a call that was not refused
//!     ; 70 65 ..        n, the free count, and the digests of map, catalogue and card, and for show of its buffer, for close
//!                       of its scratch; for summary-build and summary-check then the numbers of group 0, and the digest of
//!                       all numbers
//! ```
//!
//! A call whose word begins with summary- is lent the summary; summary-placed is reserve-placed. A line with + is no call: it
//! sets how many words, entries and bytes are lent (+lend), how many numbers of the summary (+summary), n and the free count
//! (+shape), an entry (+entry), the two halves of a word of the map (+word), a number of the summary (+number), other bits of a
//! byte of the card (+byte), or for the calls that follow the eight limits of the wings (+limits), which are n before that, or
//! the role of who makes them (+role), which is 1 before that. A line with = is a heading.

mod closing_calls;
mod dated_calls;
mod false_summary_calls;
mod filling_calls;
mod limits;
mod offer_calls;
mod other_calls;
mod pause_calls;
mod placed_calls;
mod random_calls;
mod role_calls;
mod space_calls;
mod store;
mod summary_calls;
mod wing_calls;

use crate::call::Kind;
use crate::random::Random;
pub(crate) use store::by_card;
pub use store::Caller;
use store::Store;

/// What comes of each line of a list, by who makes the calls.
pub fn outcomes(list: &str, caller: Caller) -> String {
    let store = &mut Store::new(caller);
    list.lines()
        .map(|line| match line.starts_with('=') {
            true => format!("{line}\n"),
            false => store.line(line),
        })
        .collect()
}

/// The list of the examples: their outcomes, without what came of each line.
pub fn list() -> String {
    examples()
        .lines()
        .map(|line| match line.find([':', ';']) {
            Some(end) if !line.starts_with('=') => format!("{}\n", &line[..end]),
            _ => format!("{line}\n"),
        })
        .collect()
}

/// The outcomes of the examples, worked out block by block and byte by byte.
pub fn examples() -> String {
    let store = &mut Store::new(by_card);
    let mut text = sections(store, first().into_iter().chain(lists()).chain(last()));
    text += &random(store);
    text += &sections(store, with_summary());
    text += &random_with_summary(store);
    text += &sections(store, dated());
    text += &random_dated(store);
    text += &sections(store, with_limits());
    text += &random_with_limits(store);
    text += &sections(store, closings());
    text += &random_with_closings(store);
    text += &sections(store, with_roles());
    text + &random_with_roles(store)
}

/// A line of a list is a call of this name.
#[cfg(test)]
fn has_call(list: &str, name: &str) -> bool {
    list.lines().any(|line| line.split_whitespace().next() == Some(name))
}

/// A heading, and the lines below it.
type Section = (&'static str, String);

fn sections(store: &mut Store, sections: impl Iterator<Item = Section>) -> String {
    sections
        .map(|(name, list)| format!("== {name}\n{}", store.lines(&list)))
        .collect()
}

fn first() -> [Section; 2] {
    [
        ("fresh", limits::fresh()),
        ("search and survey", limits::searches()),
    ]
}

/// Lists of calls, each on a fresh card of its own.
fn lists() -> impl Iterator<Item = Section> {
    let lists = [
        filling_calls::LISTS,
        placed_calls::LISTS,
        space_calls::LISTS,
        offer_calls::LISTS,
        pause_calls::LISTS,
        other_calls::LISTS,
    ];
    let lists = lists.into_iter().flatten();
    lists.map(|(name, list)| (*name, on_70(list)))
}

fn last() -> [Section; 6] {
    [
        ("word boundaries", limits::BOUNDARIES.to_string()),
        (
            "word boundaries of placed reserves",
            placed_calls::BOUNDARIES.to_string(),
        ),
        ("spaces over words", space_calls::WORDS.to_string()),
        (
            "word boundaries of accepts",
            offer_calls::BOUNDARIES.to_string(),
        ),
        ("numbers of sheets", limits::SHEETS.to_string()),
        ("row 1", limits::row_1()),
    ]
}

/// The calls that are lent a summary.
fn with_summary() -> impl Iterator<Item = Section> {
    let lists = [summary_calls::LISTS, false_summary_calls::LISTS];
    let lists = lists.into_iter().flatten();
    let lists = lists.map(|(name, list)| (*name, on_70(list)));
    let words = summary_calls::WORDS.to_string();
    lists.chain([
        ("summaries of one word and of three", words),
        ("row 1 with a summary", limits::row_1_with_summary()),
    ])
}

/// Dated shows (document 02, (m)).
fn dated() -> impl Iterator<Item = Section> {
    let lists = dated_calls::LISTS.iter();
    let lists = lists.map(|(name, list)| (*name, on_70(list)));
    lists.chain([("row 1 of a dated show", limits::row_1_dated())])
}

/// Wings that share a card (document 02, (k)).
fn with_limits() -> impl Iterator<Item = Section> {
    wing_calls::LISTS
        .iter()
        .map(|(name, list)| (*name, wing_calls::on_70(list)))
}

/// Closing the gaps (document 02, (l)).
fn closings() -> impl Iterator<Item = Section> {
    let lists = closing_calls::LISTS.iter();
    let lists = lists.map(|(name, list)| (*name, on_70(list)));
    lists.chain([
        ("closing, ends of words", closing_calls::WORDS.to_string()),
        ("row 1 of a closing", limits::row_1_of_closing()),
    ])
}

/// Who may do what (document 02, (n)).
fn with_roles() -> impl Iterator<Item = Section> {
    let lists = role_calls::LISTS.iter();
    let lists = lists.map(|(name, list)| (*name, on_70(list)));
    lists.chain([
        ("every call of every role", role_calls::every_call()),
        ("row 21 before row 1", limits::row_1_of_roles()),
    ])
}

fn random(store: &mut Store) -> String {
    let random = &mut Random(0x9e3779b97f4a7c15);
    let text = format!("== random\n{}", store.lines(&on_70("")));
    (0..random_calls::CALLS).fold(text, |text, _| {
        text + &store.line(&random_calls::random_call(random.draw()))
    })
}

/// Random calls that are lent a summary if they change the map; the summary is checked after each of these.
fn random_with_summary(store: &mut Store) -> String {
    let random = &mut Random(0xd1b54a32d192ed03);
    let mut text = "== random, with a summary\n".to_string();
    text += &store.lines(&on_70("summary-build"));
    for _ in 0..random_calls::WITH_SUMMARY {
        let call = lent_summary(&random_calls::random_call(random.draw()));
        text += &store.line(&call);
        if call.starts_with("summary-") {
            text += &store.line("summary-check");
        }
    }
    text
}

/// Random calls that lead to dated shows.
fn random_dated(store: &mut Store) -> String {
    let random = &mut Random(0xa0761d6478bd642f);
    let text = format!("== random, dated\n{}", store.lines(&on_70("")));
    (0..random_calls::DATED).fold(text, |text, _| {
        text + &store.line(&random_calls::random_dated_call(random.draw()))
    })
}

/// Random calls with limits, of the sheets of two wings; the limits change now and then.
fn random_with_limits(store: &mut Store) -> String {
    let random = &mut Random(0xe7037ed1a0b428db);
    let list = wing_calls::on_70("summary-build");
    let text = format!("== random, with limits\n{}", store.lines(&list));
    let text = (0..random_calls::WITH_LIMITS).fold(text, |text, _| {
        text + &store.line(&random_calls::random_call_with_limits(random.draw()))
    });
    text + &store.lines(wing_calls::END)
}

/// Random calls among which are closings, lent a summary if they change the map.
fn random_with_closings(store: &mut Store) -> String {
    let random = &mut Random(0x8ebc6af09c88c6e3);
    let mut text = "== random, with closings\n".to_string();
    text += &store.lines(&on_70("summary-build"));
    for _ in 0..random_calls::WITH_CLOSINGS {
        let call = random_calls::random_call_or_closing(random.draw());
        text += &store.line(&lent_summary(&call));
    }
    text + &store.line("summary-check")
}

/// Random calls that lead to dated shows, with some others among them; the role changes now and then, and is the pharmacist's
/// more often than not.
fn random_with_roles(store: &mut Store) -> String {
    let random = &mut Random(0xc2b2ae3d27d4eb4f);
    let mut text = format!("== random, with roles\n{}", store.lines(&on_70("")));
    let mut role_before = 1;
    for _ in 0..random_calls::WITH_ROLES {
        let (role, call) = random_calls::random_call_by_roles(random.draw());
        if role != role_before {
            text += &store.line(&format!("+role {role}"));
        }
        text += &store.line(&call);
        role_before = role;
    }
    text
}

/// The line of a call that changes the map becomes that of its form with a summary.
fn lent_summary(line: &str) -> String {
    let word = line.split(' ').next().unwrap_or("");
    let form = Kind::named(word).expect("a call").with_summary();
    line.replacen(word, form.name(), 1)
}

/// A fresh card of 70 blocks and 4 sheets, and the lines of a list.
fn on_70(list: &str) -> String {
    format!("+lend 2 4 35840\nfresh 70\n{list}")
}
