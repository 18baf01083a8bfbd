//! An opening that is already printed: where the search begins.

use crate::mark::{broken_rule, end_of};
use crate::page::{ends_leaf, Placed};
use crate::places::{column_of, side_before, Place, ENDS, OPENS};
use crate::read::Galley;
use crate::Answer;

/// What is placed where the search begins, and the side of the page that ends there. What the pages before it cost is the
/// same for every list that begins with them, so it is not counted.
#[derive(Clone, Copy)]
pub struct Origin {
    pub placed: Placed,
    pub side: usize,
}

impl Origin {
    pub fn line(&self) -> usize {
        self.placed[0]
    }

    /// The column that it lies in.
    pub fn column(&self, galley: &Galley) -> usize {
        column_of(galley, (self.placed[1], self.placed[2]))
    }

    pub fn place(&self, galley: &Galley) -> Place {
        (self.line(), self.column(galley))
    }

    /// Whether so many figures and tables are placed where a page can still end.
    pub fn reaches(&self, (j, d): (usize, usize)) -> bool {
        self.placed[1] <= j && self.placed[2] <= d
    }
}

/// Where an opening ends: 20 where its last page is not whole or a page breaks a rule, none of them being the last of a list;
/// then 21 where nothing is left.
pub fn origin_of(galley: &Galley, opening: &[u32]) -> Result<Origin, Answer> {
    let words = galley.page_words();
    if !opening.len().is_multiple_of(words) {
        return Err(Answer::refused(20, 0));
    }
    let pages = opening.len() / words;
    let mut placed = [0; 3];
    for page in 1..=pages {
        let end = end_of(opening, words, page);
        if broken_rule(galley, placed, end, page, false) != 0 {
            return Err(Answer::refused(20, page));
        }
        placed = end;
    }
    if placed == [galley.m, galley.n, galley.k] {
        return Err(Answer::refused(21, pages));
    }
    // The side before that of the next page.
    let next = if ends_leaf(galley, pages + 1) { ENDS } else { OPENS };
    Ok(Origin { placed, side: side_before(galley.spec.sides, next) })
}
