//! Closing the gaps (document 02, (l)), block by block.

use super::*;

impl Card {
    /// "Closing moves all extents towards block 0, in order of their starts, with no block free before or between them, and
    /// moves the bytes of their blocks along. Blocks free afterwards keep the bytes they had." The state is sound.
    pub(super) fn close(&mut self) -> Answer {
        let before = self.bytes.clone();
        let mut next = 0;
        for sheet in self.in_order_of_starts() {
            let Entry { start, length, .. } = self.sheets[sheet];
            self.sheets[sheet].start = next as u32;
            for old in start as usize..(start + length) as usize {
                let moved = &before[BLOCK * old..BLOCK * (old + 1)];
                self.bytes[BLOCK * next..BLOCK * (next + 1)].copy_from_slice(moved);
                next += 1;
            }
        }
        for (b, block) in self.map.iter_mut().enumerate() {
            *block = if next <= b && b < self.n { FREE } else { TAKEN };
        }
        Done
    }

    /// The sheets that have blocks.
    fn in_order_of_starts(&self) -> Vec<usize> {
        let sheets = 0..self.sheets.len();
        let mut sheets: Vec<usize> = sheets.filter(|s| self.sheets[*s].length > 0).collect();
        sheets.sort_by_key(|sheet| self.sheets[*sheet].start);
        sheets
    }
}
