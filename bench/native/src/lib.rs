//! Galleys read, marked and made in plain Rust, one by one and bound as a book.
//!
//! It shares no code with the proved engine, so that the two can be compared, in their answers and in their speed. The
//! rules are document 01's, as document 02 amends them. The searches follow the engine's design: the plain one of the
//! starts of every place and side was written without a look at the engine's code, the one by queues before the engine had
//! its own, the one within a limit after it, and what that knows of what is still to come beside it. Their authors knew the
//! reference in Python: that all agree tells of slips, less of a sentence in the papers that all might misread.
//! Like the engine it allocates nothing: galley, work area and page list are lent, sums and queues are on the stack.
#![no_std]
#![forbid(unsafe_code)]

mod ahead;
mod book;
mod estimate;
mod forecast;
mod known;
mod limited;
mod make;
mod mark;
mod opening;
mod page;
mod places;
mod plain;
mod queue;
mod read;
mod report;
mod spec;
mod sums;
mod sweep;
mod weighed;

pub use book::{book, Book};
pub use forecast::{forecast, Forecast};
pub use known::{Known, ALL, ENGINE, LIMIT};
pub use make::{make, make_after, make_knowing, make_knowing_after, make_plain, make_plain_after};
pub use mark::mark;
pub use report::{report, Mark};
pub use weighed::weighed;

/// Words a page takes in the lists of a galley: 3 where it has tables, else 2, also where it is refused.
pub fn page_words(bytes: &[u8]) -> usize {
    read::read(bytes).map_or(2, |galley| galley.page_words())
}

/// Lines, figures and tables of a galley; none where it is refused.
pub fn sizes(bytes: &[u8]) -> [usize; 3] {
    read::read(bytes).map_or([0; 3], |galley| [galley.m, galley.n, galley.k])
}

/// Success has number and place 0; a refusal has everything else 0, but for the count of what making weighs on 11.
#[derive(Clone, Copy, Debug, Default, PartialEq, Eq)]
pub struct Answer {
    pub number: u32,
    pub place: u32,
    pub p: u32,
    pub x: u32,
    pub y: u32,
    pub t: u32,
    pub weighed: u64,
    pub w: u32,
}

impl Answer {
    fn refused(number: u32, place: usize) -> Self {
        Answer { number, place: place as u32, ..Answer::default() }
    }
}
