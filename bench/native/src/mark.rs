//! The marking: rules 12 to 18, then the turns.

use crate::page::{ends_leaf, height_of, leaf, Placed};
use crate::places::{citation, may_end, may_part};
use crate::read::{read, Galley};
use crate::Answer;

pub fn mark(bytes: &[u8], list: &[u32]) -> Answer {
    match read(bytes) {
        Err(refusal) => refusal,
        Ok(galley) => mark_galley(&galley, list),
    }
}

fn mark_galley(galley: &Galley, list: &[u32]) -> Answer {
    let words = galley.page_words();
    if list.is_empty() || !list.len().is_multiple_of(words) || list.len() > words * galley.blocks() {
        return Answer::refused(12, 0);
    }
    let pages = list.len() / words;
    let mut start = [0; 3];
    for page in 1..=pages {
        let end = end_of(list, words, page);
        let broken = broken_rule(galley, start, end, page, page == pages);
        if broken != 0 {
            return Answer::refused(broken, page);
        }
        start = end;
    }
    if start != [galley.m, galley.n, galley.k] {
        return Answer::refused(18, pages);
    }
    measure(galley, list)
}

/// Where a page ends, by its two words or three.
pub fn end_of(list: &[u32], words: usize, page: usize) -> Placed {
    let at = words * (page - 1);
    [list[at] as usize, list[at + 1] as usize, if words == 3 { list[at + 2] as usize } else { 0 }]
}

/// The first of 13 to 17 that the page breaks, or 0.
pub fn broken_rule(galley: &Galley, start: Placed, end: Placed, page: usize, last: bool) -> u32 {
    let ([a, b, c], [i, j, d]) = (start, end);
    if i < a || j < b || d < c || i > galley.m || j > galley.n || d > galley.k || start == end {
        return 13;
    }
    if !may_end(galley, i) || !may_part(galley, j) {
        return 14;
    }
    let height = height_of(galley, start, end);
    if height.tight > galley.spec.ht_max {
        return 15;
    }
    if height.loose < if last { galley.spec.last_min } else { galley.spec.ht_min } {
        return 16;
    }
    if (last || ends_leaf(galley, page)) && citation(galley, (j, d)) > i {
        return 17;
    }
    0
}

/// p, X, Y, T, W of a valid list.
pub fn measure(galley: &Galley, list: &[u32]) -> Answer {
    let words = galley.page_words();
    let pages = list.len() / words;
    let x = turns_to(galley, list, 1, galley.n, |k| galley.figure(k).last)
        + turns_to(galley, list, 2, galley.k, |k| galley.table(k).last);
    let y = leaf(galley, pages) - leaf(galley, 1);
    let t = galley.spec.alpha * x + galley.spec.beta * y;
    Answer { p: pages as u32, x, y, t, w: white(galley, list, pages), ..Answer::default() }
}

/// The white space of all pages but the last.
fn white(galley: &Galley, list: &[u32], pages: usize) -> u32 {
    let mut start = [0; 3];
    let mut white = 0;
    for page in 1..pages {
        let end = end_of(list, galley.page_words(), page);
        white += height_of(galley, start, end).white(&galley.spec);
        start = end;
    }
    white
}

/// The turns from the lines that cite the floats of a stream to the floats themselves.
fn turns_to(galley: &Galley, list: &[u32], stream: usize, size: usize, cite: impl Fn(usize) -> u32) -> u32 {
    let words = galley.page_words();
    let placed = |page: usize, stream: usize| list[words * (page - 1) + stream];
    let (mut cited_on, mut placed_on) = (1, 1);
    let mut x = 0;
    // Citations never decrease, so neither page ever has to go back.
    for float in 1..=size {
        while placed(cited_on, 0) < cite(float) {
            cited_on += 1;
        }
        while placed(placed_on, stream) < float as u32 {
            placed_on += 1;
        }
        x += leaf(galley, placed_on) - leaf(galley, cited_on);
    }
    x
}
