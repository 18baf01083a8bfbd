//! What is still to come after a place, at least.
//!
//! It is a sum of what pages to come cost: the leaves that are turned, and the floats that wait at their turns. It never falls by more than
//! a page costs, so what was paid and what is still to come never fall together from page to page. A place where they pass the limit is on
//! no list within the limit.

use crate::known::Known;
use crate::opening::Origin;
use crate::places::{citation, floats_at, may_end, may_part, side_before, Cited, ENDS, OPENS};
use crate::read::{Galley, MOST_FIGURES, MOST_LINES, MOST_TABLES};
use crate::spec::Spec;
use crate::sums::{float_sums, line_sums};

/// More pages than any list has: those of a run without a page end that is higher than a page.
const HOPELESS: u16 = u16::MAX;

pub struct Ahead<'a> {
    galley: &'a Galley<'a>,
    known: Known,
    /// The first line from which one page reaches line k.
    dawns: [u16; MOST_LINES + 1],
    /// The pages that the lines, figures and tables after the first k take by themselves.
    lines: [u16; MOST_LINES + 1],
    figures: [u16; MOST_FIGURES + 1],
    tables: [u16; MOST_TABLES + 1],
    /// The most figures, and tables, that are placed one page after k of them are.
    more_figures: [u16; MOST_FIGURES + 1],
    more_tables: [u16; MOST_TABLES + 1],
    /// The height of the lines after line k, without spaces.
    heights: [u32; MOST_LINES + 1],
    /// The floats of the column that is filled, the height of the others, and what is cited by the line that was asked for last.
    floats: (usize, usize),
    left: u32,
    cited: Cited,
}

impl<'a> Ahead<'a> {
    pub fn new(galley: &'a Galley, origin: &Origin, known: Known) -> Self {
        let (sums, (figure_sums, table_sums)) = (line_sums(galley), float_sums(galley));
        let fits = |height: u32| height <= galley.spec.ht_max;
        let mut ahead = Ahead {
            galley,
            known,
            dawns: [0; MOST_LINES + 1],
            lines: [0; MOST_LINES + 1],
            figures: [0; MOST_FIGURES + 1],
            tables: [0; MOST_TABLES + 1],
            more_figures: [0; MOST_FIGURES + 1],
            more_tables: [0; MOST_TABLES + 1],
            heights: [0; MOST_LINES + 1],
            floats: (0, 0),
            left: 0,
            cited: Cited::default(),
        };
        for k in (0..galley.m).rev() {
            ahead.heights[k] = ahead.heights[k + 1] + galley.line(k + 1).height;
        }
        if known.dead {
            furthest_back(galley.m, |a, k| fits(sums.between(a, k).tight), &mut ahead.dawns);
        }
        if known.alone {
            let mut more_lines = [0; MOST_LINES + 1];
            furthest_on(galley.m, |a, k| may_end(galley, k) && fits(sums.between(a, k).tight), &mut more_lines);
            pages_alone(galley.m, &more_lines, &mut ahead.lines);
        }
        if known.alone || known.waits {
            let figures = |b, j| may_part(galley, j) && fits(figure_sums.between(b, j).tight);
            furthest_on(galley.n, figures, &mut ahead.more_figures);
            furthest_on(galley.k, |c, d| fits(table_sums.between(c, d).tight), &mut ahead.more_tables);
            pages_alone(galley.n, &ahead.more_figures, &mut ahead.figures);
            pages_alone(galley.k, &ahead.more_tables, &mut ahead.tables);
        }
        ahead.begin(origin.column(galley));
        ahead
    }

    pub fn known(&self) -> Known {
        self.known
    }

    /// A column is begun, at its top.
    pub fn begin(&mut self, column: usize) {
        let (galley, (j, d)) = (self.galley, floats_at(self.galley, column));
        (self.floats, self.cited) = ((j, d), Cited::default());
        if self.known.leaves {
            let figures: u32 = (j + 1..=galley.n).map(|k| galley.figure(k).height).sum();
            let tables: u32 = (d + 1..=galley.k).map(|k| galley.table(k).height).sum();
            self.left = figures + tables;
        }
    }

    /// The first line of the column that a page may end after. One that opens a spread is followed by one that ends it or the list, and
    /// that reaches the line that cites the last of the floats.
    pub fn dawn(&self) -> usize {
        usize::from(self.dawns[citation(self.galley, self.floats)])
    }

    /// The turns still to come after a page of a side that ends after a line of the column; none where no list goes on from there. Lines
    /// are asked for in their order.
    pub fn rest(&mut self, i: usize, side: usize) -> Option<u32> {
        let (galley, (j, d)) = (self.galley, self.floats);
        let left = self.heights[i] + self.left;
        let mut pages = if self.known.leaves { left.div_ceil(galley.spec.ht_max) } else { 0 };
        if self.known.alone {
            let alone = self.lines[i].max(self.figures[j]).max(self.tables[d]);
            if alone == HOPELESS {
                return None;
            }
            pages = pages.max(u32::from(alone));
        }
        let mut rest = galley.spec.beta * leaves(&galley.spec, side, pages);
        if self.known.waits {
            self.cited = self.cited.through(galley, i);
            rest += galley.spec.alpha * waits(&galley.spec, side, &self.more_figures, j, self.cited.figures());
            rest += galley.spec.alpha * waits(&galley.spec, side, &self.more_tables, d, self.cited.tables());
        }
        Some(rest)
    }
}

/// For each block k the first block from which on a page goes to block k.
fn furthest_back(size: usize, fits: impl Fn(usize, usize) -> bool, back: &mut [u16]) {
    let mut a = 0;
    for (k, first) in back.iter_mut().enumerate().take(size + 1) {
        while a < k && !fits(a, k) {
            a += 1;
        }
        *first = a as u16;
    }
}

/// For each block a the last one that a page from there on may end with; a itself where there is none.
fn furthest_on(size: usize, may_go: impl Fn(usize, usize) -> bool, on: &mut [u16]) {
    let mut k = size;
    for a in (0..=size).rev() {
        while k > a && !may_go(a, k) {
            k -= 1;
        }
        on[a] = k as u16;
    }
}

/// The pages that the blocks after each take, each page going as far as it can.
fn pages_alone(size: usize, on: &[u16], pages: &mut [u16]) {
    pages[size] = 0;
    for a in (0..size).rev() {
        let next = usize::from(on[a]);
        pages[a] = if next == a { HOPELESS } else { pages[next].saturating_add(1) };
    }
}

/// The leaves turned before the last of so many pages that follow one of a side.
fn leaves(spec: &Spec, side: usize, pages: u32) -> u32 {
    match (spec.sides, side) {
        (2, OPENS) => pages / 2,
        (2, _) => pages.saturating_sub(1) / 2,
        _ => pages.saturating_sub(1),
    }
}

/// How often so many cited blocks of a stream have to wait after a page of a side, where as many as can be are placed page by page.
fn waits(spec: &Spec, side: usize, more: &[u16], placed: usize, cited: usize) -> u32 {
    let (mut side, mut placed, mut waits) = (side, placed, 0);
    while placed < cited && usize::from(more[placed]) > placed {
        placed = usize::from(more[placed]);
        side = side_before(spec.sides, side);
        if side == ENDS {
            waits += cited.saturating_sub(placed) as u32;
        }
    }
    waits
}
