//! The calls that are lent a summary beside the map (document 02, (j)). They do and answer what they do without it, but that
//! group 0 can refuse a reserve, and that with a false summary the end of a reserve's search and some of the summary are open.

use super::*;
use crate::call::Search;
use crate::summary::{above_changed, build, own};

impl Card {
    /// Whether the lent summary is the map's own.
    pub fn has_own_summary(&self) -> bool {
        own(&self.map, self.n, &self.summary)
    }

    /// "Where group 0's longest is below k, a reserve's search gives no fit, whatever the map holds."
    fn told_full(&self, call: Call) -> bool {
        let longest = self.summary.get(2);
        call.kind.has_summary() && longest.is_some_and(|longest| *longest < call.number)
    }

    /// Where a search, a reserve or an offer finds its blocks: at the least fit of the map, unless the call says how its search
    /// ends.
    pub(super) fn found(&self, call: Call) -> Option<usize> {
        match call.search {
            Search::Ended(start) => start,
            Search::Exact if self.told_full(call) => None,
            Search::Exact => self.least_fit(call),
        }
    }

    /// Whether it is open how the search of a reserve ends: no row before 10 holds, the summary is false, and group 0's longest
    /// is not below k.
    pub fn leaves_search_open(&self, call: Call) -> bool {
        let rows = call.kind.rows();
        let Some(search) = rows.iter().position(|row| *row == Row::NoFit) else {
            return false;
        };
        let comes_to_it = !rows[..search].iter().any(|row| self.holds(*row, call));
        let by_summary = call.kind.has_summary() && !self.told_full(call);
        by_summary && comes_to_it && !self.has_own_summary()
    }

    /// "A run granted is free, inside n, within its figures and as long as wanted": whether one from a start on is, which need
    /// not be the lowest. It is, if it is a fit of the figures that admit no other start.
    pub fn may_grant(&self, call: Call, start: usize) -> bool {
        let end = start + call.number as usize;
        let Figures { from, before, step } = self.figures_of(call);
        let inside = from as usize <= start && end <= before as usize && end <= self.n;
        let only = figures(start as u32, end as u32, step);
        inside && least_fit(&self.map[..end], only, end - start) == Some(start)
    }

    /// A call for which no row holds, and which is lent the summary. A true summary is the changed map's own afterwards, and
    /// so is any that is built anew. A false one stays here; that is one of the ways that are open.
    pub(super) fn accepted_with_summary(&mut self, call: Call, slice: &mut [u8]) -> Answer {
        let anew = call.kind.builds_anew() || self.has_own_summary();
        let answer = self.accepted(call, slice);
        if anew {
            self.summary = build(&self.map, self.n);
        }
        answer
    }

    /// With a false summary the groups above changed words are open after an accepted call, and no others, for the forms
    /// "change only the groups above changed words": those become what they are in another summary. A refused call changes no
    /// word.
    pub fn take_open_groups(&mut self, map_before: &[bool], left: &[u32]) {
        if map_before == self.map {
            return;
        }
        for at in above_changed(map_before, &self.map, self.n) {
            self.summary[at] = left[at];
        }
    }
}
