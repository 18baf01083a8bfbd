//! The places: what the work area holds of each, the sides of a page, and what a page costs that ends at one.

use crate::read::Galley;

/// Words of a place: two sides of a tag, the cost in two words, the starting line and the starting column.
pub const PLACE: usize = 10;
pub const SIDE: usize = 5;
pub const REACHED: u32 = 1;

/// Turns and white space as one number, which compares turns first: no list has so much white space that it would count as a
/// turn.
pub type Cost = u64;

pub fn turns(turns: u32) -> Cost {
    Cost::from(turns) << 32
}

/// A page that opens a spread and one that ends it. Single-sided, every page ends its own.
pub const OPENS: usize = 0;
pub const ENDS: usize = 1;

/// Lines placed so far, and the column: the figures and the tables placed so far as one number.
pub type Place = (usize, usize);

/// How many columns there are.
pub fn columns(galley: &Galley) -> usize {
    (galley.n + 1) * (galley.k + 1)
}

/// The column with so many figures and tables placed: later figures come later, and for the same figures later tables.
pub fn column_of(galley: &Galley, (j, d): (usize, usize)) -> usize {
    j * (galley.k + 1) + d
}

/// The figures and the tables that are placed in a column.
pub fn floats_at(galley: &Galley, column: usize) -> (usize, usize) {
    (column / (galley.k + 1), column % (galley.k + 1))
}

/// The full place.
pub fn whole(galley: &Galley) -> Place {
    (galley.m, columns(galley) - 1)
}

/// The least cost of a page that ends at a place, with all pages before it, and where that page starts.
#[derive(Clone, Copy)]
pub struct Least {
    pub cost: Cost,
    pub start: Place,
}

/// Where the words of a side of a place begin.
pub fn entry(galley: &Galley, (i, column): Place, side: usize) -> usize {
    (column * (galley.m + 1) + i) * PLACE + side * SIDE
}

pub fn least(galley: &Galley, work: &[u32], place: Place, side: usize) -> Option<Least> {
    let at = entry(galley, place, side);
    let words = &work[at..at + SIDE];
    (words[0] == REACHED).then(|| Least {
        cost: Cost::from(words[2]) << 32 | Cost::from(words[1]),
        start: (words[3] as usize, words[4] as usize),
    })
}

pub fn store(galley: &Galley, work: &mut [u32], place: Place, side: usize, least: Option<Least>) {
    let at = entry(galley, place, side);
    let words = match least {
        None => [0; SIDE],
        Some(Least { cost, start: (a, from) }) => [REACHED, cost as u32, (cost >> 32) as u32, a as u32, from as u32],
    };
    work[at..at + SIDE].copy_from_slice(&words);
}

/// Every place of a column from a line on unreached.
pub fn clear_column(galley: &Galley, work: &mut [u32], line: usize, column: usize) {
    work[entry(galley, (line, column), OPENS)..entry(galley, (0, column + 1), OPENS)].fill(0);
}

/// The side of the page before one of this side.
pub fn side_before(sides: u32, side: usize) -> usize {
    if sides == 2 {
        ENDS - side
    } else {
        side
    }
}

/// The first of the sides that a page can have: single-sided there is only one.
pub fn first_side(sides: u32) -> usize {
    if sides == 2 {
        OPENS
    } else {
        ENDS
    }
}

/// The entry where the search begins, which no page starts before.
pub const ORIGIN: Least = Least { cost: 0, start: (0, 0) };

/// Whether a page may end after line i.
pub fn may_end(galley: &Galley, i: usize) -> bool {
    i == 0 || i == galley.m || galley.line(i).last == 1
}

/// Whether a page may end after figure j.
pub fn may_part(galley: &Galley, j: usize) -> bool {
    j == 0 || j == galley.n || !galley.figure(j).kept
}

/// The line from which on everything is cited of so many figures and tables; 0 where there are none.
pub fn citation(galley: &Galley, (j, d): (usize, usize)) -> usize {
    let figure = if j > 0 { galley.figure(j).last } else { 0 };
    let table = if d > 0 { galley.table(d).last } else { 0 };
    figure.max(table) as usize
}

/// Figures and tables that are cited so far.
#[derive(Clone, Copy, Default)]
pub struct Cited {
    figures: usize,
    tables: usize,
}

impl Cited {
    /// Those cited by line i or earlier, counted on from those of an earlier line.
    pub fn through(mut self, galley: &Galley, i: usize) -> Self {
        while self.figures < galley.n && galley.figure(self.figures + 1).last as usize <= i {
            self.figures += 1;
        }
        while self.tables < galley.k && galley.table(self.tables + 1).last as usize <= i {
            self.tables += 1;
        }
        self
    }

    pub fn figures(self) -> usize {
        self.figures
    }

    pub fn tables(self) -> usize {
        self.tables
    }

    /// Whether all of so many figures and tables are cited.
    pub fn covers(self, (j, d): (usize, usize)) -> bool {
        j <= self.figures && d <= self.tables
    }

    /// How many of them wait with so many figures and tables placed. Some of those placed may be cited further on.
    pub fn waiting(self, (j, d): (usize, usize)) -> u32 {
        (self.figures.saturating_sub(j) + self.tables.saturating_sub(d)) as u32
    }
}

/// What a page that ends its spread at a place costs, with these floats cited so far: those of them that wait, and the
/// turn. The last page costs nothing.
pub fn price(galley: &Galley, place: Place, floats: (usize, usize), cited: Cited) -> Cost {
    if place == whole(galley) {
        return 0;
    }
    turns(galley.spec.alpha * cited.waiting(floats) + galley.spec.beta)
}
