//! What is told of a galley or of a book beforehand, in words and as a line.

use crate::engine::Forecast;
use crate::galley::{Block, Galley};
use crate::list::spaced;
use std::iter::Sum;
use std::ops::Add;

/// Nanoseconds for each place of the work area, which is cleared, and for each start of a page that is looked at. They were fitted to
/// the engine's times on the galleys of `bench` and the chapters of `samples/real`: docs/PERFORMANCE.md has what was told and taken.
const A_PLACE: f64 = 3.0;
const A_START: f64 = 25.0;
/// A search within its limit finds lines so many pages apart beside as many figures, and tables so many pages apart.
const PAGES_OF_LINES: f64 = 30.0;
const PAGES_OF_TABLES: f64 = 2.0;
/// Where the limit was set too low there is a second search, without one.
const SEARCHES: f64 = 2.0;

const BYTES_A_WORD: f64 = 4.0;

/// How long a making takes, in nanoseconds of a processor like those that it was measured on.
#[derive(Clone, Copy, Debug, Default, PartialEq)]
pub struct Time {
    /// What it comes to as a rule. It hangs on how far the search goes, which nobody knows beforehand.
    pub likely: f64,
    /// What it comes to if the search has to look at every start of every place, twice.
    pub ceiling: f64,
}

impl Time {
    /// The making of a galley.
    pub fn of_making(galley: &Galley) -> Time {
        let Reach { places, lines, figures, tables, pages, starts } = Reach::of(galley);
        let columns = (galley.figures.len() as f64 + 1.0)
            * (galley.tables.len() as f64 + 1.0).min(PAGES_OF_TABLES * tables + 1.0);
        let band = (galley.lines.len() as f64 + 1.0).min(PAGES_OF_LINES * lines);
        let looked_at = columns * band * figures.clamp(1.0, pages) * tables.clamp(1.0, pages);
        Time {
            likely: A_PLACE * places + A_START * looked_at.min(starts),
            ceiling: SEARCHES * (A_PLACE * places + A_START * starts),
        }
    }

    /// A chapter of a book, whose table is filled whole, once for each side that it may open on and once more for its pages.
    pub fn of_chapter(galley: &Galley, is_first: bool) -> Time {
        let Reach { places, figures, tables, starts, .. } = Reach::of(galley);
        let searches = if !is_first && galley.spec.double_sided { 3.0 } else { 2.0 };
        let looked_at = places * figures.max(1.0) * tables.max(1.0);
        Time {
            likely: searches * (A_PLACE * places + A_START * looked_at),
            ceiling: searches * (A_PLACE * places + A_START * starts),
        }
    }

    /// `about 6.8 ms, at most 0.3 s`.
    pub fn in_words(self) -> String {
        format!("about {}, at most {}", shown(self.likely), shown(self.ceiling))
    }
}

impl Add for Time {
    type Output = Time;

    fn add(self, other: Time) -> Time {
        Time { likely: self.likely + other.likely, ceiling: self.ceiling + other.ceiling }
    }
}

impl Sum for Time {
    fn sum<Times: Iterator<Item = Time>>(times: Times) -> Time {
        times.fold(Time::default(), Add::add)
    }
}

/// What the time hangs on.
struct Reach {
    places: f64,
    /// Lines, figures and tables in a row that fit a page by themselves, in the mean.
    lines: f64,
    figures: f64,
    tables: f64,
    /// The pages that all blocks fill, and one at least.
    pages: f64,
    /// Starts of all places: as many as the most figures and tables that fit a page allow.
    starts: f64,
}

impl Reach {
    fn of(galley: &Galley) -> Reach {
        let lines: Vec<&Block> = galley.lines.iter().map(|line| &line.block).collect();
        let [figures, tables] = galley.floats().map(|(_, _, floats)| floats.iter().map(|float| &float.block).collect());
        let most = u64::from(galley.spec.ht_max);
        let places: f64 = galley.sizes().into_iter().map(|size| size as f64 + 1.0).product();
        let heights = [&lines, &figures, &tables].map(|blocks: &Vec<&Block>| last(&reaches(blocks)));
        let [lines, figures, tables] = [lines, figures, tables].map(|blocks| Runs::of(&blocks, most));
        Reach {
            places,
            lines: lines.mean,
            figures: figures.mean,
            tables: tables.mean,
            pages: (heights.iter().sum::<u64>() as f64 / most.max(1) as f64).max(1.0),
            starts: places * (figures.most + 1.0) * (tables.most + 1.0),
        }
    }
}

/// How many blocks in a row fit a page by themselves, from each block on.
struct Runs {
    mean: f64,
    most: f64,
}

impl Runs {
    fn of(blocks: &[&Block], ht_max: u64) -> Runs {
        let reach = reaches(blocks);
        let fits = |first: usize, end: usize| reach[end] - reach[first] - u64::from(blocks[end - 1].least) <= ht_max;
        let (mut end, mut sum, mut most) = (0, 0, 0);
        for first in 0..blocks.len() {
            end = end.max(first);
            // A row that begins later reaches as far at least, so that the end never goes back.
            while end < blocks.len() && fits(first, end + 1) {
                end += 1;
            }
            sum += end - first;
            most = most.max(end - first);
        }
        Runs { mean: sum as f64 / blocks.len().max(1) as f64, most: most as f64 }
    }
}

/// How far the first blocks reach, each with the least space after it: none, one, two and so on.
fn reaches(blocks: &[&Block]) -> Vec<u64> {
    let mut reach = vec![0];
    for block in blocks {
        reach.push(last(&reach) + u64::from(block.height) + u64::from(block.least));
    }
    reach
}

fn last(reach: &[u64]) -> u64 {
    reach.last().copied().unwrap_or(0)
}

/// Nanoseconds to two digits, in a unit that people know.
fn shown(nanoseconds: f64) -> String {
    let (value, unit) = match nanoseconds {
        few if few < 1e6 => (few / 1e3, "µs"),
        some if some < 1e9 => (some / 1e6, "ms"),
        many => (many / 1e9, "s"),
    };
    match value {
        small if small < 9.95 => format!("{small:.1} {unit}"),
        some if some < 99.5 => format!("{some:.0} {unit}"),
        large => format!("{:.0} {unit}", (large / 10.0).round() * 10.0),
    }
}

/// Memory, pages weighed and the time, a line each.
pub fn in_words(told: &Forecast, time: Time) -> String {
    let megabytes = |words: u32| f64::from(words) * BYTES_A_WORD / 1e6;
    format!(
        "work area: {} words, {:.3} MB\npage list: {} words, {:.3} MB\npages weighed: at most {}\n\
         time: {}, at {A_PLACE} ns a place and {A_START} ns a start\n",
        told.work,
        megabytes(told.work),
        told.list,
        megabytes(told.list),
        told.ceiling,
        time.in_words(),
    )
}

/// Words of work, words of list, the ceiling.
pub fn line(told: &Forecast) -> String {
    spaced(&[u64::from(told.work), u64::from(told.list), told.ceiling])
}

#[cfg(test)]
mod tests {
    use super::*;
    use crate::text::pack;

    fn time_of(text: &str) -> Time {
        Time::of_making(&Galley::decode(&pack(text).expect("a galley").bytes).expect("records in order"))
    }

    #[test]
    fn a_time_is_told_from_places_and_starts() {
        // Two places of three lines and a figure; a row of figures that fit a page has one, so that a place has two starts.
        let time = time_of("GS 30 30 0 0 1 1 1\nTL 10 0 0 1\nTL 10 0 0 1\nTL 10 0 0 1\nFG 20 0 0 1\nED\n");
        assert_eq!(time, Time { likely: 3.0 * 8.0 + 25.0 * 8.0, ceiling: 2.0 * (3.0 * 8.0 + 25.0 * 16.0) });
        assert_eq!(time.in_words(), "about 0.2 µs, at most 0.8 µs");
    }

    #[test]
    fn rows_are_counted_by_their_tightest_heights() {
        let blocks = [10, 20, 5, 40, 31, 1].map(|height| Block { height, least: 2, most: 9 });
        let blocks: Vec<&Block> = blocks.iter().collect();
        let Runs { mean, most } = Runs::of(&blocks, 34);
        // From 10 on two (10 + 2 + 20), from 20 two, from 5 one, from 40 none, from 31 two (31 + 2 + 1), from 1 one.
        assert_eq!((mean, most), (8.0 / 6.0, 2.0));
    }

    #[test]
    fn a_time_is_shown_in_two_digits() {
        let told = [16_940.0, 9_960_000.0, 157e6, 1.24e9].map(shown);
        assert_eq!(told, ["17 µs", "10 ms", "160 ms", "1.2 s"]);
    }
}
