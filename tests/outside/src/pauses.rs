//! What the calls of a list on paused sheets are examples of (document 02, (g)).

use crate::counts::Counts;
use bitwise::call::{Call, Kind};
use bitwise::card::{Card, Entry};
use bitwise::roles::may;

const KINDS: [(&str, Kind, u32, bool); 9] = [
    ("a pause of an Absent sheet", Kind::Pause, 0x41, false),
    ("a pause of a finished course", Kind::Pause, 0x43, true),
    (
        "a pause of a pause without blocks",
        Kind::Pause,
        0x50,
        false,
    ),
    ("a pause of a paused course", Kind::Pause, 0x50, true),
    (
        "a resume of a pause without blocks",
        Kind::Resume,
        0x50,
        false,
    ),
    ("a resume of a paused course", Kind::Resume, 0x50, true),
    ("a show of a paused course", Kind::Show, 0x50, true),
    (
        "a release of a pause without blocks",
        Kind::Release,
        0x50,
        false,
    ),
    ("a release of a paused course", Kind::Release, 0x50, true),
];

/// What lists must have had.
pub fn expected() -> impl Iterator<Item = String> {
    KINDS.into_iter().map(|(name, ..)| name.to_string())
}

/// Whether a sheet is Paused and has blocks.
pub fn is_paused_course(entry: &Entry) -> bool {
    entry.mark == 0x50 && entry.length > 0
}

/// Counts what a call is an example of. It is the next one of the card.
pub fn note(card: &Card, call: Call, counts: &mut Counts) {
    let Some(entry) = card.sheets.get(call.sheet as usize) else {
        return;
    };
    if !may(call.role, call.kind.name()) {
        return;
    }
    let tried = (call.kind.without_summary(), entry.mark, entry.length > 0);
    let mut kinds = KINDS.iter();
    if let Some((name, ..)) = kinds.find(|(_, kind, mark, held)| (*kind, *mark, *held) == tried) {
        counts.note_kind(name);
    }
}
