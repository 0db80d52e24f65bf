//! Wings that share a card (document 02, (k)), sheet by sheet.

use super::*;

/// "A sheet's wing is its number divided by 128, rounded down" (document 02, (k)).
pub const fn wing_of(sheet: u32) -> u32 {
    sheet / 128
}

impl Card {
    /// The blocks that a wing holds: the lengths of its sheets as their entries have them, damaged ones too (document 02, (k)).
    /// Its sheets are those whose numbers are the wing's when they are divided by 128.
    pub fn held_by_wing(&self, wing: u32) -> u64 {
        let sheets = (0..).zip(&self.sheets);
        let of_wing = sheets.filter(|(sheet, _)| wing_of(*sheet) == wing);
        of_wing.map(|(_, entry)| entry.length as u64).sum()
    }

    /// Whether what the wing of the call's sheet holds and what is wanted are together more than its limit. A sheet behind the
    /// last that a catalogue can have has no wing.
    pub(super) fn over_limit(&self, call: Call) -> bool {
        let wing = wing_of(call.sheet);
        let limit = call.limits.get(wing as usize);
        let together = self.held_by_wing(wing) + call.number as u64;
        limit.is_some_and(|limit| together > *limit as u64)
    }
}
