//! Sums of a stream's heights, so that the heights of any run of blocks are a difference of two.

use crate::page::Height;
use crate::read::{Block, Galley, MOST_FIGURES, MOST_LINES, MOST_TABLES};

pub struct Sums<const COUNTS: usize> {
    /// Blocks 1 to k, each with the space after it: what a page that starts after block k leaves behind.
    pub left: [Height; COUNTS],
    /// Blocks 1 to k without the space after block k, which vanishes on a page that ends there.
    pub ended: [Height; COUNTS],
}

pub type LineSums = Sums<{ MOST_LINES + 1 }>;
pub type FigureSums = Sums<{ MOST_FIGURES + 1 }>;
pub type TableSums = Sums<{ MOST_TABLES + 1 }>;

impl<const COUNTS: usize> Sums<COUNTS> {
    fn of(size: usize, block: impl Fn(usize) -> Block) -> Self {
        let mut sums = Sums { left: [Height::default(); COUNTS], ended: [Height::default(); COUNTS] };
        for k in 1..=size {
            let block = block(k);
            let Height { tight, loose } = sums.left[k - 1];
            let (tight, loose) = (tight + block.height, loose + block.height);
            sums.ended[k] = Height { tight, loose };
            sums.left[k] = Height { tight: tight + block.least, loose: loose + block.most };
        }
        sums
    }

    /// The heights of blocks b + 1 to j.
    pub fn between(&self, b: usize, j: usize) -> Height {
        if b == j {
            return Height::default();
        }
        let (left, ended) = (self.left[b], self.ended[j]);
        Height { tight: ended.tight - left.tight, loose: ended.loose - left.loose }
    }
}

pub fn line_sums(galley: &Galley) -> LineSums {
    Sums::of(galley.m, |k| galley.line(k))
}

pub fn float_sums(galley: &Galley) -> (FigureSums, TableSums) {
    (Sums::of(galley.n, |k| galley.figure(k)), Sums::of(galley.k, |k| galley.table(k)))
}
