//! A whole book: of all choices of chapter lists the best. A chapter matters to those after it by the side on which it closes
//! alone, so for each side the least cost so far is kept, and for each chapter which side it opened after.

use crate::forecast::{list_words, work_words};
use crate::make::trace;
use crate::mark::measure;
use crate::opening::{origin_of, Origin};
use crate::places::{first_side, least, side_before, whole, Cost, Least, Place, ENDS, OPENS};
use crate::read::{read, Galley};
use crate::spec::read_spec;
use crate::sweep;
use crate::weighed::weighed_of;

const MOST_CHAPTERS: usize = 200;

/// Success has number and place 0; a refusal has everything else 0, but for the count of what is weighed on 11.
#[derive(Clone, Copy, Debug, Default, PartialEq, Eq)]
pub struct Book {
    pub number: u64,
    pub place: u64,
    pub p: u64,
    pub x: u64,
    pub y: u64,
    pub t: u64,
    pub w: u64,
    pub weighed: u64,
}

impl Book {
    fn refused(number: u32, place: usize) -> Self {
        Book { number: number.into(), place: place as u64, ..Book::default() }
    }
}

/// Makes a book whose chapters are lent end to end, in twice the work area of the largest.
pub fn book(galleys: &[u8], lengths: &[u32], work: &mut [u32], list: &mut [u32]) -> Book {
    let bound = match bind(galleys, lengths) {
        Err(refusal) => return refusal,
        Ok(bound) => bound,
    };
    let needed = 2 * bound.largest;
    if work.len() < needed {
        return Book::refused(9, needed);
    }
    if list.len() < bound.list {
        return Book::refused(10, bound.list);
    }
    let work = &mut work[..needed];
    let answer = match bound.sides(work) {
        None => Book::refused(11, 0),
        Some(sides) => bound.write(&sides, work, list),
    };
    work.fill(0);
    Book { weighed: bound.chapters().map(|galley| weighed_of(&galley, [0; 3])).sum(), ..answer }
}

/// Chapters that read without refusal and are alike.
struct Bound<'a> {
    galleys: &'a [u8],
    lengths: &'a [u32],
    /// Words of work area of the largest chapter, and of page list of all of them.
    largest: usize,
    list: usize,
}

/// 28, then chapter by chapter its own refusal, 29 and 30.
fn bind<'a>(galleys: &'a [u8], lengths: &'a [u32]) -> Result<Bound<'a>, Book> {
    let some = (1..=MOST_CHAPTERS).contains(&lengths.len());
    if !some || lengths.iter().map(|&length| u64::from(length)).sum::<u64>() != galleys.len() as u64 {
        return Err(Book::refused(28, 0));
    }
    let mut bound = Bound { galleys, lengths, largest: 0, list: 0 };
    let (mut rest, mut first) = (galleys, None);
    for (number, &length) in (1..).zip(lengths) {
        let (bytes, after) = rest.split_at(length as usize);
        rest = after;
        let galley = read(bytes).map_err(|refusal| Book::refused(refusal.number, number))?;
        // As bytes, mark and all, so that the two editions are unlike.
        let (spec, opened) = bytes.split_at(read_spec(bytes).map_or(0, |(_, end)| end));
        if *first.get_or_insert(spec) != spec {
            return Err(Book::refused(29, number));
        }
        if number > 1 && opened.starts_with(b"FO") {
            return Err(Book::refused(30, number));
        }
        bound.largest = bound.largest.max(work_words(&galley));
        bound.list += list_words(&galley);
    }
    Ok(bound)
}

/// For each chapter the side of the page before it, and after them that of the book's last page.
type Sides = [usize; MOST_CHAPTERS + 1];

impl<'a> Bound<'a> {
    fn chapters(&self) -> impl Iterator<Item = Galley<'a>> {
        let mut rest = self.galleys;
        self.lengths.iter().filter_map(move |&length| {
            let (bytes, after) = rest.split_at(length as usize);
            rest = after;
            read(bytes).ok()
        })
    }

    /// The sides of the best book, if there is one: the chapters forward, with a table for each side that one opens after.
    fn sides(&self, work: &mut [u32]) -> Option<Sides> {
        let (one, two) = work.split_at_mut(self.largest);
        let tables = [one, two];
        let mut ways = [[ENDS; 2]; MOST_CHAPTERS];
        let mut costs = [None; 2];
        for (number, galley) in self.chapters().enumerate() {
            if number == 0 {
                costs[origin(&galley).side] = Some(Sum::default());
            }
            for before in [OPENS, ENDS] {
                let Some(cost) = &mut costs[before] else { continue };
                fill(&opened(&galley, number, before), tables[before]);
                // A turn from the chapter before, unless that closes a page before the end of its spread.
                if number > 0 && before == ENDS {
                    cost.turns += u64::from(galley.spec.beta);
                }
            }
            let mut next = [None; 2];
            for side in first_side(galley.spec.sides)..=ENDS {
                let reached = |before: usize| Some(costs[before]?.plus(closing(&galley, tables[before], side)?.cost));
                let sums = [reached(OPENS), reached(ENDS)];
                let before = match sums {
                    [Some(even), Some(odd)] if even == odd => later(&galley, [&*tables[OPENS], &*tables[ENDS]], side),
                    [Some(even), Some(odd)] => usize::from(odd < even),
                    [even, _] => usize::from(even.is_none()),
                };
                (ways[number][side], next[side]) = (before, sums[before]);
            }
            costs = next;
        }
        Some(walked(&ways[..self.lengths.len()], best_side(costs)?))
    }

    /// The pages of every chapter between these sides, one chapter after another, and what they come to.
    fn write(&self, sides: &Sides, work: &mut [u32], list: &mut [u32]) -> Book {
        let mut book = Book::default();
        let mut at = 0;
        for (number, galley) in self.chapters().enumerate() {
            let galley = opened(&galley, number, sides[number]);
            let origin = fill(&galley, work);
            let side = sides[number + 1];
            let end = at + galley.page_words() * trace(&galley, &origin, work, side, &mut []);
            trace(&galley, &origin, work, side, &mut list[at..end]);
            let made = measure(&galley, &list[at..end]);
            book.p += u64::from(made.p);
            book.x += u64::from(made.x);
            book.w += u64::from(made.w);
            at = end;
        }
        self.chapters().next().map_or(book, |first| with_turns(book, &first))
    }
}

/// Y from the book's first page to its last, and T.
fn with_turns(book: Book, first: &Galley) -> Book {
    let (spec, folio) = (&first.spec, u64::from(first.folio));
    let y = if spec.sides == 2 { (folio + book.p - 1) / 2 - folio / 2 } else { book.p - 1 };
    Book { y, t: u64::from(spec.alpha) * book.x + u64::from(spec.beta) * y, ..book }
}

/// Turns and white space, compared in this order; each of them can pass 32 bits.
#[derive(Clone, Copy, Default, PartialEq, Eq, PartialOrd, Ord)]
struct Sum {
    turns: u64,
    white: u64,
}

impl Sum {
    fn plus(self, cost: Cost) -> Sum {
        Sum { turns: self.turns + (cost >> 32), white: self.white + (cost & Cost::from(u32::MAX)) }
    }
}

/// A chapter as it opens after a page of this side: the first on its own folio, a later one on any of the right side.
fn opened<'a>(galley: &Galley<'a>, number: usize, before: usize) -> Galley<'a> {
    let mut chapter = *galley;
    chapter.folio = match (number, before) {
        (0, _) => galley.folio,
        (_, OPENS) => 1,
        _ => 2,
    };
    chapter
}

/// Where the search of a chapter begins: there is no opening that could be refused.
fn origin(galley: &Galley) -> Origin {
    origin_of(galley, &[]).unwrap_or(Origin { placed: [0; 3], side: ENDS })
}

fn fill(galley: &Galley, work: &mut [u32]) -> Origin {
    let origin = origin(galley);
    sweep::fill(galley, &origin, work);
    origin
}

/// The least cost of the chapter's lists that close on a side.
fn closing(galley: &Galley, work: &[u32], side: usize) -> Option<Least> {
    least(galley, work, whole(galley), side)
}

/// Which of two tables has the list with the later start, from the last page backwards. The chapter opens on different sides and
/// closes on one, so the two lists have not as many pages, and their starts differ before both have ended.
fn later(galley: &Galley, tables: [&[u32]; 2], side: usize) -> usize {
    let (mut end, mut side) = (whole(galley), side);
    loop {
        let starts = tables.map(|work| least(galley, work, end, side).map(|least| least.start));
        match starts {
            [Some(even), Some(odd)] if even == odd && even != NOTHING => end = even,
            [even, odd] => return usize::from(odd > even),
        }
        side = side_before(galley.spec.sides, side);
    }
}

/// The place where nothing is placed.
const NOTHING: Place = (0, 0);

/// The side of the last page: of equal costs, that of an even folio.
fn best_side([even, odd]: [Option<Sum>; 2]) -> Option<usize> {
    match (even, odd) {
        (None, None) => None,
        (Some(even), Some(odd)) => Some(usize::from(odd < even)),
        (even, _) => Some(usize::from(even.is_none())),
    }
}

/// The sides from the last page back to the one before the first chapter.
fn walked(ways: &[[usize; 2]], last: usize) -> Sides {
    let mut sides = [last; MOST_CHAPTERS + 1];
    for (number, way) in ways.iter().enumerate().rev() {
        sides[number] = way[sides[number + 1]];
    }
    sides
}
