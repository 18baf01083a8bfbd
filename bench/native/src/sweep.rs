//! The search by queues: every place in time that does not depend on the number of lines on a page.
//!
//! Column by column, and in a column by the column that the page starts in: the lines a that a page to (i, column) can
//! start after are then a window. Too early a line makes the page too high, too late a line makes it too low, and as i
//! grows the page only grows, so neither end of the window ever falls and a queue holds what is worth weighing.
//!
//! Two queues hold it, since the white space of a page hangs on its start too. Starts before the split make pages that reach
//! htMax and leave none; those after it leave htMax less the loosest height, a sum over the start and one over the end, so
//! that they compare by cost and the first of these sums. The split never falls either.

use crate::opening::Origin;
use crate::page::Height;
use crate::places::{
    citation, clear_column, column_of, columns, first_side, floats_at, least, may_end, may_part, price, side_before,
    store, whole, Cited, Cost, Least, ENDS, OPENS, ORIGIN,
};
use crate::plain::best_starts;
use crate::queue::Queue;
use crate::read::Galley;
use crate::spec::Spec;
use crate::sums::{float_sums, line_sums, LineSums, TableSums};

/// The starts in a window whose pages reach htMax, by their cost, and those whose pages leave white space, by their cost and
/// what the lines up to them take.
struct Parts {
    full: Queue,
    white: Queue,
}

/// The parts of the window for each side of the page that ends at a place.
type Queues = [Parts; 2];

/// What of the places a search looks at.
pub trait Bounds {
    /// The first line that pages of some floats can start after.
    fn first(&mut self, pages: &Pages) -> usize;

    /// Those pages are swept next.
    fn begin(&mut self, galley: &Galley, work: &[u32], pages: &Pages);

    /// Whether no start of theirs after line `low` or later is of use to a side of the place after line i.
    fn beaten(&mut self, galley: &Galley, work: &[u32], pages: &Pages, i: usize, low: usize, side: usize) -> bool;

    /// The first line of the column that is filled that a page may end after, as far as is known.
    fn dawn(&self) -> usize;

    /// Whether none of them that ends after line i or later starts after line `low` or later.
    fn ends(&self, pages: &Pages, i: usize, low: usize) -> bool;

    /// Whether one of this side that ends after line i at this cost is kept.
    fn admits(&mut self, pages: &Pages, i: usize, side: usize, cost: Cost) -> bool;
}

/// Every place from a line on.
struct From(usize);

impl Bounds for From {
    fn first(&mut self, _: &Pages) -> usize {
        self.0
    }

    fn begin(&mut self, _: &Galley, _: &[u32], _: &Pages) {}

    fn beaten(&mut self, _: &Galley, _: &[u32], _: &Pages, _: usize, _: usize, _: usize) -> bool {
        false
    }

    fn dawn(&self) -> usize {
        0
    }

    fn ends(&self, _: &Pages, _: usize, _: usize) -> bool {
        false
    }

    fn admits(&mut self, _: &Pages, _: usize, _: usize, _: Cost) -> bool {
        true
    }
}

pub fn fill(galley: &Galley, origin: &Origin, work: &mut [u32]) {
    fill_within(galley, origin, work, &mut From(origin.line()));
}

/// Every place from the origin on, by a sweep for each pair of columns that pages start and end in, and the last page.
pub fn fill_within(galley: &Galley, origin: &Origin, work: &mut [u32], bounds: &mut impl Bounds) {
    let (lines, (figures, tables)) = (line_sums(galley), float_sums(galley));
    let mut queues = [0; 2].map(|_| Parts { full: Queue::new(), white: Queue::new() });
    // The figure moves on to the earliest after which the others up to figure j fit a page.
    let [line, mut earliest, table] = origin.placed;
    for to in origin.column(galley)..columns(galley) {
        let (j, d) = floats_at(galley, to);
        if !origin.reaches((j, d)) {
            continue;
        }
        clear_column(galley, work, line, to);
        while figures.between(earliest, j).tight > galley.spec.ht_max {
            earliest += 1;
        }
        if !may_part(galley, j) {
            continue;
        }
        if to == origin.column(galley) {
            store(galley, work, (line, to), origin.side, Some(ORIGIN));
        }
        // The nearest column first, whose starts are most often the best. Where the page starts in the column itself, the column
        // feeds itself, so that comes last.
        for b in (earliest..=j).rev() {
            let some = Floats { height: figures.between(b, j), kinds: u32::from(b < j) };
            for c in (earliest_table(&galley.spec, some, &tables, table, d)..=d).rev().filter(|&c| (b, c) != (j, d)) {
                let floats = some.with_tables(&galley.spec, tables.between(c, d), c < d);
                let pages = Pages { from: column_of(galley, (b, c)), to, floats };
                sweep(galley, origin, work, &lines, &mut queues, &pages, bounds);
            }
        }
        let none = Floats { height: Height::default(), kinds: 0 };
        sweep(galley, origin, work, &lines, &mut queues, &Pages { from: to, to, floats: none }, bounds);
    }
    // The last page is held to a height of its own, so its starts are another window.
    let best = best_starts(galley, origin, work, whole(galley));
    store(galley, work, whole(galley), OPENS, best[OPENS]);
    store(galley, work, whole(galley), ENDS, best[ENDS]);
}

/// The floats of a page: how high they are by themselves, and of how many kinds.
#[derive(Clone, Copy)]
pub struct Floats {
    pub height: Height,
    pub kinds: u32,
}

impl Floats {
    pub fn with_tables(self, spec: &Spec, tables: Height, some: bool) -> Floats {
        let height = self.height.beside(tables, some && self.kinds > 0, spec);
        Floats { height, kinds: self.kinds + u32::from(some) }
    }

    /// What they add to the lines of a page.
    pub fn beside_lines(self, spec: &Spec) -> Height {
        self.height.beside(Height::default(), self.kinds > 0, spec)
    }
}

/// The earliest table from `first` on after which the others up to table d fit a page beside the given figures.
pub fn earliest_table(spec: &Spec, figures: Floats, tables: &TableSums, first: usize, d: usize) -> usize {
    let fits = |c: usize| figures.with_tables(spec, tables.between(c, d), c < d).height.tight <= spec.ht_max;
    (first..d).find(|&c| fits(c)).unwrap_or(d)
}

/// The pages of the floats between two columns and any lines.
pub struct Pages {
    pub from: usize,
    pub to: usize,
    pub floats: Floats,
}

/// The pages weighed for every place of the column that they end in from the origin's line on, but the full one.
fn sweep(
    galley: &Galley,
    origin: &Origin,
    work: &mut [u32],
    lines: &LineSums,
    queues: &mut Queues,
    pages: &Pages,
    bounds: &mut impl Bounds,
) {
    let (spec, &Pages { from, to, floats }) = (&galley.spec, pages);
    let start = bounds.first(pages);
    if start > galley.m {
        return;
    }
    bounds.begin(galley, work, pages);
    let placed = floats_at(galley, to);
    let beside = floats.beside_lines(spec);
    // No spread ends before the line that cites the last figure or table, and single-sided no page does.
    let citation = citation(galley, placed);
    // No page ends at the origin itself.
    let after = origin.line() + usize::from(to == origin.column(galley));
    let first = start.max(after).max(if spec.sides == 1 { citation } else { bounds.dawn() });
    let mut window = Window { low: start, split: start, next: start };
    let mut cited = Cited::default();
    for parts in queues.iter_mut() {
        parts.full.clear();
        parts.white.clear();
    }
    for i in first..=galley.m {
        if !may_end(galley, i) || (i, to) == whole(galley) {
            continue;
        }
        window.shut(lines, i, beside.tight, spec.ht_max);
        if bounds.ends(pages, i, window.low) {
            break;
        }
        let sides = first_side(spec.sides)..=if i < citation { OPENS } else { ENDS };
        if sides.clone().all(|side| bounds.beaten(galley, work, pages, i, window.low, side)) {
            continue;
        }
        while window.opens(lines, i, beside.loose, spec.ht_min) {
            let taken = lines.left[window.next].loose;
            enter(galley, work, (window.next, from), |side, cost| {
                queues[side].white.enter(window.next, cost + Cost::from(taken))
            });
            window.next += 1;
        }
        while window.fills(lines, i, beside.loose, spec.ht_max) {
            enter(galley, work, (window.split, from), |side, cost| queues[side].full.enter(window.split, cost));
            window.split += 1;
        }
        // A side is a number by which other tables are asked, too.
        #[allow(clippy::needless_range_loop)]
        for side in sides {
            let parts = &mut queues[side];
            parts.full.leave(window.low);
            parts.white.leave(window.split);
            // White space is htMax less the loosest height; what the lines up to the start take is in the cost already.
            let lacking = |(a, cost): (usize, Cost)| {
                (a, cost + Cost::from(spec.ht_max) - Cost::from(lines.ended[i].loose + beside.loose))
            };
            let fronts = [parts.full.best(), parts.white.best().map(lacking)];
            let mut best = weigh(galley, work, fronts, pages, i, side);
            if from == to && side == ENDS {
                cited = cited.through(galley, i);
                let more = price(galley, (i, to), placed, cited);
                best = best.map(|least| Least { cost: least.cost + more, ..least });
            }
            store(galley, work, (i, to), side, best.filter(|least| bounds.admits(pages, i, side, least.cost)));
        }
    }
}

/// The best so far of place (i, to) against the best starts in the parts of the window, with the white space that they leave,
/// and against the page of floats alone, which has no line and no separation from one and so is no part of the window.
fn weigh(
    galley: &Galley,
    work: &[u32],
    fronts: [Option<(usize, Cost)>; 2],
    pages: &Pages,
    i: usize,
    side: usize,
) -> Option<Least> {
    let &Pages { from, to, floats } = pages;
    let mut best = least(galley, work, (i, to), side);
    for (a, cost) in fronts.into_iter().flatten() {
        best = better(best, Least { cost, start: (a, from) });
    }
    if from < to && floats.height.loose >= galley.spec.ht_min {
        if let Some(Least { cost, .. }) = least(galley, work, (i, from), side_before(galley.spec.sides, side)) {
            let cost = cost + Cost::from(floats.height.white(&galley.spec));
            best = better(best, Least { cost, start: (i, from) });
        }
    }
    best
}

/// The starting lines from `low` on make no page to the present place too high; those before `split` make one that reaches
/// htMax; those before `next` have been let in.
struct Window {
    low: usize,
    split: usize,
    next: usize,
}

impl Window {
    fn shut(&mut self, lines: &LineSums, i: usize, beside: u32, ht_max: u32) {
        while self.low < i && lines.ended[i].tight + beside > lines.left[self.low].tight + ht_max {
            self.low += 1;
        }
        // What is too high reaches htMax, and would have been let in.
        self.split = self.split.max(self.low);
        self.next = self.next.max(self.low);
    }

    /// Whether the first starting line after the split makes a page to the present place that reaches htMax.
    fn fills(&self, lines: &LineSums, i: usize, beside: u32, ht_max: u32) -> bool {
        self.split < self.next && lines.ended[i].loose + beside >= lines.left[self.split].loose + ht_max
    }

    /// Whether the next starting line makes a page to the present place that is high enough.
    fn opens(&self, lines: &LineSums, i: usize, beside: u32, ht_min: u32) -> bool {
        self.next < i && lines.ended[i].loose + beside >= lines.left[self.next].loose + ht_min
    }
}

/// A start with its cost for each side that it can be followed by. A place that was never reached is no start.
fn enter(galley: &Galley, work: &[u32], start: (usize, usize), mut into: impl FnMut(usize, Cost)) {
    let sides = galley.spec.sides;
    for side in first_side(sides)..=ENDS {
        if let Some(Least { cost, .. }) = least(galley, work, start, side_before(sides, side)) {
            into(side, cost);
        }
    }
}

/// The less dear; of equally dear ones that with the later starting line, then that with the later column.
fn better(best: Option<Least>, new: Least) -> Option<Least> {
    match best {
        Some(least) if least.cost < new.cost || (least.cost == new.cost && least.start > new.start) => best,
        _ => Some(new),
    }
}
