//! One page: its two heights, the spread that it lies on.

use crate::read::{Block, Galley};
use crate::spec::Spec;

/// Tightest and loosest height of some blocks of one stream.
#[derive(Clone, Copy, Default)]
pub struct Height {
    pub tight: u32,
    pub loose: u32,
}

impl Height {
    /// The height with one more block set before the others; `alone` if there are none, so that its space vanishes.
    pub fn with(self, block: Block, alone: bool) -> Height {
        let (least, most) = if alone { (0, 0) } else { (block.least, block.most) };
        Height { tight: self.tight + block.height + least, loose: self.loose + block.height + most }
    }

    /// What a page of this height lacks of htMax, however loose it is.
    pub fn white(self, spec: &Spec) -> u32 {
        spec.ht_max.saturating_sub(self.loose)
    }

    /// The height with another kind of blocks beside this one, separated if there are both.
    pub fn beside(self, other: Height, both: bool, spec: &Spec) -> Height {
        let (s_min, s_max) = if both { (spec.s_min, spec.s_max) } else { (0, 0) };
        Height { tight: self.tight + other.tight + s_min, loose: self.loose + other.loose + s_max }
    }
}

/// Lines, figures and tables placed so far.
pub type Placed = [usize; 3];

/// The height of the page from one place to another.
pub fn height_of(galley: &Galley, [a, b, c]: Placed, [i, j, d]: Placed) -> Height {
    let mut lines = Height::default();
    for k in (a + 1..=i).rev() {
        lines = lines.with(galley.line(k), k == i);
    }
    let mut figures = Height::default();
    for k in (b + 1..=j).rev() {
        figures = figures.with(galley.figure(k), k == j);
    }
    let mut tables = Height::default();
    for k in (c + 1..=d).rev() {
        tables = tables.with(galley.table(k), k == d);
    }
    let text = lines.beside(figures, a < i && b < j, &galley.spec);
    text.beside(tables, (a < i || b < j) && c < d, &galley.spec)
}

/// Pages are counted from 1, folios from the galley's first.
fn folio_of(galley: &Galley, page: usize) -> usize {
    galley.folio as usize + page - 1
}

/// The page, or its spread in double-sided work.
pub fn leaf(galley: &Galley, page: usize) -> u32 {
    if galley.spec.sides == 2 {
        (folio_of(galley, page) / 2 + 1) as u32
    } else {
        page as u32
    }
}

pub fn ends_leaf(galley: &Galley, page: usize) -> bool {
    galley.spec.sides == 1 || folio_of(galley, page) % 2 == 1
}
