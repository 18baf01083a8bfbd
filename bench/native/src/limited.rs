//! The search within a limit: that by queues, without what is dearer than the best list may be.
//!
//! A place is left unreached if what was paid and what is still to come (see `ahead`) pass the limit together. Every place where they do not
//! still gets its best start; if the full place is among them, the list to it is the best of all. The limits are guesses. Where nothing
//! within one is the whole, the search is made again with the next, unless the limit had left out nothing.
//!
//! Of each column the first and the last reached line are kept: pages from it start between them, so a sweep begins with
//! the one and ends where its window has passed the other, and a column that nothing reached costs nothing.

use crate::ahead::Ahead;
use crate::estimate::Limits;
use crate::known::Known;
use crate::opening::Origin;
use crate::places::{first_side, least, side_before, store, turns, whole, Cost, ENDS, OPENS};
use crate::read::{Galley, MOST_FIGURES, MOST_LINES, MOST_TABLES};
use crate::sweep::{fill_within, Bounds, Pages};

const MOST_COLUMNS: usize = (MOST_FIGURES + 1) * (MOST_TABLES + 1);

pub fn fill(galley: &Galley, origin: &Origin, work: &mut [u32], known: Known) {
    let mut ahead = Ahead::new(galley, origin, known);
    let Some(root) = ahead.rest(origin.line(), origin.side) else {
        store(galley, work, whole(galley), OPENS, None);
        store(galley, work, whole(galley), ENDS, None);
        return;
    };
    for limit in Limits::new(galley, origin, known, root) {
        let mut within = Within::new(galley, origin, &mut ahead, limit);
        fill_within(galley, origin, work, &mut within);
        let made = [OPENS, ENDS].into_iter().any(|side| least(galley, work, whole(galley), side).is_some());
        if made || !within.passed {
            break;
        }
    }
}

/// The first and the last reached line of a column.
#[derive(Clone, Copy)]
struct Reached {
    first: u16,
    last: u16,
}

/// Of a column that nothing reached.
const NONE: Reached = Reached { first: MOST_LINES as u16 + 1, last: 0 };

impl Reached {
    fn with(self, i: usize) -> Reached {
        Reached { first: self.first.min(i as u16), last: self.last.max(i as u16) }
    }
}

struct Within<'a, 'b> {
    ahead: &'a mut Ahead<'b>,
    limit: Cost,
    /// Whether a place was left out since it would have passed the limit.
    passed: bool,
    /// What pages from earlier columns reach of the column that is being filled. The turn is not paid yet.
    column: usize,
    offered: Reached,
    reached: [Reached; MOST_COLUMNS],
    /// For each side of the pages that are swept, the least cost of their starts from each reached line on.
    starts: [[Cost; MOST_LINES + 1]; 2],
}

impl<'a, 'b> Within<'a, 'b> {
    fn new(galley: &Galley, origin: &Origin, ahead: &'a mut Ahead<'b>, limit: Cost) -> Self {
        let (line, column) = origin.place(galley);
        let mut reached = [NONE; MOST_COLUMNS];
        reached[column] = NONE.with(line);
        ahead.begin(column);
        let starts = [[Cost::MAX; MOST_LINES + 1]; 2];
        Within { ahead, limit, passed: false, column, offered: reached[column], reached, starts }
    }
}

impl Bounds for Within<'_, '_> {
    fn first(&mut self, pages: &Pages) -> usize {
        if pages.to != self.column {
            (self.column, self.offered) = (pages.to, NONE);
            self.ahead.begin(pages.to);
        }
        let starts = if pages.from < pages.to { self.reached[pages.from] } else { self.offered };
        usize::from(starts.first)
    }

    fn begin(&mut self, galley: &Galley, work: &[u32], pages: &Pages) {
        if !self.ahead.known().beaten || pages.from == pages.to {
            return;
        }
        let Reached { first, last } = self.reached[pages.from];
        for side in first_side(galley.spec.sides)..=ENDS {
            let before = side_before(galley.spec.sides, side);
            let mut cost = Cost::MAX;
            for a in (usize::from(first)..=usize::from(last)).rev() {
                if let Some(start) = least(galley, work, (a, pages.from), before) {
                    cost = cost.min(start.cost);
                }
                self.starts[side][a] = cost;
            }
        }
    }

    /// A start that costs as much as the one that is held may still be the later one.
    fn beaten(&mut self, galley: &Galley, work: &[u32], pages: &Pages, i: usize, low: usize, side: usize) -> bool {
        if !self.ahead.known().beaten || pages.from == pages.to {
            return false;
        }
        let cost = self.starts[side][low];
        let dear = cost < Cost::MAX && cost > self.limit;
        self.passed |= dear;
        dear || cost == Cost::MAX || least(galley, work, (i, pages.to), side).is_some_and(|held| held.cost < cost)
    }

    fn dawn(&self) -> usize {
        self.ahead.dawn()
    }

    fn ends(&self, pages: &Pages, i: usize, low: usize) -> bool {
        let offered = pages.from == pages.to && i <= usize::from(self.offered.last);
        !offered && low > usize::from(self.reached[pages.from].last)
    }

    fn admits(&mut self, pages: &Pages, i: usize, side: usize, cost: Cost) -> bool {
        // What is still to come is asked for once the turn is paid.
        let rest = if pages.from < pages.to { Some(0) } else { self.ahead.rest(i, side) };
        let Some(rest) = rest else { return false };
        if cost + turns(rest) > self.limit {
            self.passed = true;
            return false;
        }
        let lines = if pages.from < pages.to { &mut self.offered } else { &mut self.reached[pages.to] };
        *lines = lines.with(i);
        true
    }
}
