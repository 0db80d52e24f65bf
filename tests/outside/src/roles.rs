//! Who may do what (document 02, (n)): every call by every role, and what the service's calls leave of what sheets show.

use crate::beside::{library_of, Beside, Compared};
use crate::closing::close_of;
use crate::counts::Counts;
use crate::generate::accepted;
use crate::images::{load_by, other_tables, save_by};
use crate::lengths::one;
use crate::library::{bytes, Library};
use crate::together::card;
use bitwise::blocks::scratch_words;
use bitwise::call::{call, Call, Kind, CALLS, LOAD, SAVE};
use bitwise::card::{Answer, Card};
use bitwise::image::{blocks_of, body_of, image_of};
use bitwise::random::Random;
use bitwise::roles::{admitted, may, CARER, PHARMACIST, SERVICE, UNKNOWN};

/// Numbers whose last bits are those of a role, and some others that are none.
const OTHERS: [u32; 8] = [
    5,
    0x11,
    0x101,
    0x102,
    0x1_0003,
    0x8000_0001,
    0xffff_fffe,
    255,
];

/// Who makes a call: mostly the pharmacist; else a carer or the service, one who may make it, or a number that is no role.
pub fn some_role(kind: Kind, random: &mut Random) -> u32 {
    match random.within(0, 24) {
        0 => random.one(UNKNOWN),
        1..=2 => random.one(&[CARER, SERVICE]),
        3..=6 => random.one(&admitted(kind.name())),
        _ => PHARMACIST,
    }
}

fn tried(call: &str, role: u32) -> String {
    let answer = if may(role, call) {
        "let through"
    } else {
        "turned away"
    };
    match role {
        PHARMACIST => format!("the pharmacist, {answer}"),
        CARER => format!("a carer, {answer}"),
        SERVICE => format!("the service, {answer}"),
        _ => format!("a number that is no role, {answer}"),
    }
}

/// What every call by every role must have come to.
pub fn expected() -> impl Iterator<Item = String> {
    let calls = [
        (SAVE.0, PHARMACIST),
        ("survey", CARER),
        (SAVE.0, CARER),
        (LOAD.0, SERVICE),
        ("show", SERVICE),
        ("survey", UNKNOWN[0]),
    ];
    calls.into_iter().map(|(call, role)| tried(call, role))
}

fn in_list(call: &str, role: u32) -> String {
    format!("{call} of role {role} that is done in a list")
}

/// Counts what a call of a list is an example of. It is the next one of the card.
pub fn note(card: &Card, call: Call, counts: &mut Counts) {
    if call.role != PHARMACIST && card.first(call).is_none() {
        counts.note_kind(&in_list(call.kind.name(), call.role));
    }
}

/// What lists must have had: every call that a carer and the service may make.
pub fn expected_in_lists() -> impl Iterator<Item = String> {
    let names = CALLS.iter().map(|(_, name, _)| *name);
    names.flat_map(|name| {
        let roles = admitted(name).into_iter().skip(1);
        roles.map(move |role| in_list(name, role))
    })
}

/// Every call by every role and by some numbers that are none, on a card on which the pharmacist's is done.
pub fn every_call(seed: u64, margin: usize, counts: &mut Counts) -> Result<(), String> {
    let random = &mut Random::of(seed);
    for role in (0..5).chain([u32::MAX]).chain(OTHERS) {
        for (kind, name, _) in CALLS {
            let card = card(random);
            let call = accepted(kind, &card, random).by(role);
            one(&card, call, margin, counts)?;
            counts.note_kind(&tried(name, role));
        }
        image(role, &card(random), margin, counts)?;
    }
    Ok(())
}

/// A save and a load by a role, of a sound state.
fn image(role: u32, card: &Card, margin: usize, counts: &mut Counts) -> Result<(), String> {
    let (words, sheets) = (scratch_words(card.n), card.sheets.len());
    let length = 512 * blocks_of(card.n, sheets);
    let (saved, _) = save_by(role, card, words, length, margin, counts)?;
    let image = image_of(&body_of(card));
    let mut lent = other_tables(card.n, sheets);
    let loaded = load_by(role, &mut lent, &image, words, margin, counts)?;
    for ((call, _), answer) in [(SAVE, saved), (LOAD, loaded)] {
        let done = answer == Answer::Done;
        if done != may(role, call) || !done && answer != Answer::Refused(21) {
            return Err(format!("{call} by role {role} answered {answer:?}"));
        }
        counts.note_kind(&tried(call, role));
    }
    Ok(())
}

/// What the library shows of each place of each Complete sheet, as these entries have them.
fn shown(card: &Card, library: &mut Library) -> Vec<Vec<u8>> {
    let sheets = (0..).zip(&card.sheets);
    let complete = sheets.filter(|(_, entry)| entry.mark == 0x43);
    let places = complete.flat_map(|(sheet, e)| (0..e.length).map(move |place| (sheet, place)));
    let show = |(sheet, place)| {
        let buffer = &mut bytes(&[0x3c; 496], 0);
        library.call(call(Kind::Show, sheet, place), buffer);
        buffer.now().to_vec()
    };
    places.map(show).collect()
}

/// A list of calls by a carer and the service, with no fresh and no load among them: every Complete sheet shows what it showed,
/// and of a carer's calls nothing at all has changed.
pub fn service(seed: u64, margin: usize, counts: &mut Counts) -> Result<(), String> {
    let random = &mut Random::of(seed);
    let before = card(random);
    let payloads = shown(&before, &mut library_of(&before, 0));
    let mut beside = Beside::new(before.clone(), margin, Compared::All);
    let kinds: Vec<Kind> = CALLS[1..].iter().map(|(kind, ..)| *kind).collect();
    let roles = random.one(&[&[CARER][..], &[CARER, SERVICE], &[SERVICE]]);
    for _ in 0..40 {
        let (kind, role) = (random.one(&kinds), random.one(roles));
        let call = match random.within(0, 8) {
            0 => close_of(&before),
            1 => close_of(&before).with_summary(),
            _ => accepted(kind, &before, random),
        };
        let call = call.by(role);
        let result = beside.call(call, counts);
        result.map_err(|error| format!("{call}: {error}"))?;
    }
    if shown(&beside.card, &mut library_of(&beside.card, 0)) != payloads {
        return Err("a Complete sheet shows something else".to_string());
    }
    if roles == [CARER] && beside.card != before {
        return Err("a carer's calls changed the card".to_string());
    }
    Ok(())
}
