//! What is told of a galley beforehand: the words that making needs, and a ceiling on what it weighs.

use crate::places::{columns, PLACE};
use crate::read::{read, Block, Galley};
use crate::Answer;

/// A refusal has everything but its number and its place 0.
#[derive(Clone, Copy, Debug, Default, PartialEq, Eq)]
pub struct Forecast {
    pub number: u32,
    pub place: u32,
    pub work: u32,
    pub list: u32,
    pub ceiling: u64,
}

pub fn forecast(bytes: &[u8]) -> Forecast {
    match read(bytes) {
        Err(Answer { number, place, .. }) => Forecast { number, place, ..Forecast::default() },
        Ok(galley) => Forecast {
            work: work_words(&galley) as u32,
            list: list_words(&galley) as u32,
            ceiling: ceiling(&galley),
            ..Forecast::default()
        },
    }
}

pub fn work_words(galley: &Galley) -> usize {
    PLACE * (galley.m + 1) * columns(galley)
}

pub fn list_words(galley: &Galley) -> usize {
    galley.page_words() * galley.blocks()
}

/// A pair of factors for each stream: its blocks, and the most of them in a row that fit a page, each and one more.
fn ceiling(galley: &Galley) -> u64 {
    let ht_max = u64::from(galley.spec.ht_max);
    pair(galley.m, ht_max, |k| galley.line(k))
        * pair(galley.n, ht_max, |k| galley.figure(k))
        * pair(galley.k, ht_max, |k| galley.table(k))
}

fn pair(size: usize, ht_max: u64, block: impl Fn(usize) -> Block) -> u64 {
    (size as u64 + 1) * (most_together(size, ht_max, block) as u64 + 1)
}

/// Blocks a + 1 to b, b going on by one each time, without the first of them where they are too high.
fn most_together(size: usize, ht_max: u64, block: impl Fn(usize) -> Block) -> usize {
    let (mut a, mut most) = (0, 0);
    // Blocks a + 1 to b, each with the space after it.
    let mut spaced = 0;
    for b in 1..=size {
        let last = block(b);
        while a < b && spaced + u64::from(last.height) > ht_max {
            a += 1;
            if a < b {
                let first = block(a);
                spaced -= u64::from(first.height) + u64::from(first.least);
            }
        }
        if a < b {
            spaced += u64::from(last.height) + u64::from(last.least);
        }
        most = most.max(b - a);
    }
    most
}
