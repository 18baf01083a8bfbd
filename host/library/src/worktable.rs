//! A desk on a list of any length: the engine's own for up to 64 pages. Beyond that each ask is the marking of the altered list, which
//! is what an ask answers; what is pending and the layouts are then kept here, by the same rules.

use crate::engine::{self, Desk, Measure};
use crate::galley::Galley;
use crate::page::{Page, Place};
use crate::refusal::{Refusal, RefusalKind};
use crate::rules;

/// The most pages of a list on the engine's desk.
pub const MOST_PAGES: u32 = 64;
/// Layouts that a desk has room for, and the bytes of the longest name of one.
const MOST_LAYOUTS: usize = 8;
const LONGEST_NAME: usize = 16;

/// A desk on a galley and a list of any length.
#[derive(Clone)]
pub enum Worktable<'galley> {
    /// The engine's own.
    Engine(Box<Desk<'galley>>),
    /// Lists that are marked, since they are too long for that.
    Marked(Box<Marked<'galley>>),
}

/// A desk whose asks are markings.
#[derive(Clone)]
pub struct Marked<'galley> {
    galley: &'galley [u8],
    page_words: usize,
    in_force: Vec<u32>,
    pending: Option<Vec<u32>>,
    /// Name and list of each layout; none where there is room.
    layouts: [Option<(Vec<u8>, Vec<u32>)>; MOST_LAYOUTS],
}

fn refused<Answer>(kind: RefusalKind, place: u32) -> Result<Answer, Refusal> {
    Err(Refusal { kind, place })
}

impl<'galley> Marked<'galley> {
    fn open(galley: &'galley [u8], list: &[u32]) -> Result<(Self, Measure), Refusal> {
        let page_words = engine::page_words(galley)?;
        let measure = engine::mark(galley, list)?;
        let (in_force, layouts) = (list.to_vec(), Default::default());
        Ok((Marked { galley, page_words, in_force, pending: None, layouts }, measure))
    }

    fn ask(&mut self, page: u32, end: [u32; 3]) -> Result<Measure, Refusal> {
        self.pending = None;
        let Some(altered) = altered(&self.in_force, self.page_words, page, end) else {
            return refused(RefusalKind::NoSuchPage, page);
        };
        let measure = engine::mark(self.galley, &altered)?;
        self.pending = Some(altered);
        Ok(measure)
    }

    fn commit(&mut self) -> Result<(), Refusal> {
        match self.pending.take() {
            Some(list) => self.in_force = list,
            None => return refused(RefusalKind::NothingPending, 0),
        }
        Ok(())
    }

    fn save(&mut self, name: &[u8]) -> Result<(), Refusal> {
        let free = self.layouts.iter().position(Option::is_none);
        match (self.held(name)?, free) {
            (Some(at), _) | (None, Some(at)) => self.layouts[at] = Some((name.to_vec(), self.in_force.clone())),
            (None, None) => return refused(RefusalKind::NoRoom, 0),
        }
        Ok(())
    }

    fn back(&mut self, name: &[u8]) -> Result<(), Refusal> {
        let held = self.held(name)?.and_then(|at| self.layouts[at].clone());
        let Some((_, list)) = held else { return refused(RefusalKind::NoSuchLayout, 0) };
        (self.in_force, self.pending) = (list, None);
        Ok(())
    }

    fn drop_name(&mut self, name: &[u8]) -> Result<(), Refusal> {
        let Some(at) = self.held(name)? else { return refused(RefusalKind::NoSuchLayout, 0) };
        self.layouts[at] = None;
        Ok(())
    }

    /// Where a name is held; a name of another length than names have is refused.
    fn held(&self, name: &[u8]) -> Result<Option<usize>, Refusal> {
        if !(1..=LONGEST_NAME).contains(&name.len()) {
            return refused(RefusalKind::BadName, 0);
        }
        Ok(self.layouts.iter().position(|layout| layout.as_ref().is_some_and(|(held, _)| held == name)))
    }
}

/// A list with another end of a page; none if it is not one of the list's, or is its last.
pub fn altered(list: &[u32], page_words: usize, page: u32, end: [u32; 3]) -> Option<Vec<u32>> {
    let (page, pages) = (page as usize, list.len() / page_words);
    (1..pages).contains(&page).then(|| {
        let mut altered = list.to_vec();
        altered[page_words * (page - 1)..page_words * page].copy_from_slice(&end[..page_words]);
        altered
    })
}

impl<'galley> Worktable<'galley> {
    /// Opens a desk on a galley and a list, and measures the list. A galley that is refused is refused as ever; 22 is a list that the
    /// marking does not accept.
    pub fn open(galley: &'galley [u8], list: &[u32]) -> Result<(Self, Measure), Refusal> {
        match Marked::open(galley, list) {
            Ok((marked, measure)) if measure.pages > MOST_PAGES => Ok((Worktable::Marked(Box::new(marked)), measure)),
            _ => Desk::open(galley, list).map(|(desk, measure)| (Worktable::Engine(Box::new(desk)), measure)),
        }
    }

    /// Whether each ask is a marking, since the list is too long for the engine's desk.
    pub fn is_marked(&self) -> bool {
        matches!(self, Worktable::Marked(_))
    }

    /// As [`Desk::ask`].
    pub fn ask(&mut self, page: u32, end: [u32; 3]) -> Result<Measure, Refusal> {
        match self {
            Worktable::Engine(desk) => desk.ask(page, end),
            Worktable::Marked(desk) => desk.ask(page, end),
        }
    }

    /// As [`Desk::commit`].
    pub fn commit(&mut self) -> Result<(), Refusal> {
        match self {
            Worktable::Engine(desk) => desk.commit(),
            Worktable::Marked(desk) => desk.commit(),
        }
    }

    /// As [`Desk::save`].
    pub fn save(&mut self, name: &[u8]) -> Result<(), Refusal> {
        match self {
            Worktable::Engine(desk) => desk.save(name),
            Worktable::Marked(desk) => desk.save(name),
        }
    }

    /// As [`Desk::back`].
    pub fn back(&mut self, name: &[u8]) -> Result<(), Refusal> {
        match self {
            Worktable::Engine(desk) => desk.back(name),
            Worktable::Marked(desk) => desk.back(name),
        }
    }

    /// As [`Desk::drop_name`].
    pub fn drop_name(&mut self, name: &[u8]) -> Result<(), Refusal> {
        match self {
            Worktable::Engine(desk) => desk.drop_name(name),
            Worktable::Marked(desk) => desk.drop_name(name),
        }
    }

    /// As [`Desk::layouts`].
    pub fn layouts(&self) -> Vec<(Vec<u8>, Vec<u32>)> {
        match self {
            Worktable::Engine(desk) => desk.layouts(),
            Worktable::Marked(desk) => desk.layouts.iter().flatten().cloned().collect(),
        }
    }

    /// As [`Desk::list`].
    pub fn list(&self) -> Vec<u32> {
        match self {
            Worktable::Engine(desk) => desk.list(),
            Worktable::Marked(desk) => desk.in_force.clone(),
        }
    }
}

/// Another end of a page, and what the list comes to with it.
#[derive(Clone, Debug, PartialEq, Eq)]
pub struct End {
    /// Lines, figures and tables placed so far; no tables where the galley has none.
    pub place: [u32; 3],
    /// What the list with that end comes to.
    pub measure: Measure,
}

/// Every end that a page of an accepted list may have while the other pages end as they do, in order, the present one among them;
/// none if there are more than so many. The page is refused as an ask would refuse it (23).
///
/// The pages before it and after the next are as they were, so that these two alone can break a rule; what breaks none is marked.
pub fn ends(galley: &Galley, bytes: &[u8], list: &[u32], page: u32, most: usize) -> Result<Option<Vec<End>>, Refusal> {
    let (words, pages) = (galley.page_words(), Page::all(galley, list));
    let Some([here, next]) = pages.get((page as usize).wrapping_sub(1)..).and_then(|rest| rest.first_chunk()) else {
        return refused(RefusalKind::NoSuchPage, page);
    };
    let mut found = Vec::new();
    for place in between(here.start, next.end) {
        if !is_sound(galley, here, next, place, next.number == pages.len()) {
            continue;
        }
        if found.len() == most {
            return Ok(None);
        }
        let place = place.map(|count| count as u32);
        let marked = altered(list, words, page, place).map(|altered| engine::mark(bytes, &altered));
        if let Some(Ok(measure)) = marked {
            found.push(End { place, measure });
        }
    }
    Ok(Some(found))
}

/// Whether a page that ends at a place and the one after it break no rule; where no page may end nothing is measured.
fn is_sound(galley: &Galley, here: &Page, next: &Page, place: Place, last: bool) -> bool {
    if !rules::forbidden_end(galley, place).is_empty() {
        return false;
    }
    let page = Page { number: here.number, start: here.start, end: place };
    let following = Page { number: next.number, start: place, end: next.end };
    rules::on_page(galley, &page, false).is_empty() && rules::on_page(galley, &following, last).is_empty()
}

/// Every place from one to another, the lines going slowest.
fn between([a, b, c]: Place, [i, j, d]: Place) -> impl Iterator<Item = Place> {
    (a..=i).flat_map(move |line| (b..=j).flat_map(move |figure| (c..=d).map(move |table| [line, figure, table])))
}

#[cfg(test)]
mod tests {
    use super::*;
    use crate::text::pack;

    /// Seven lines and a figure that may stand on many pages.
    fn galley() -> Vec<u8> {
        let text = format!("GS 0 30 0 0 2 1 1\n{}FG 10 0 0 2\nFG 10 0 0 3\nED\n", "TL 10 0 0 1\n".repeat(7));
        pack(&text).expect("a galley").bytes
    }

    const LIST: [u32; 8] = [2, 0, 4, 1, 6, 2, 7, 2];

    /// What both desks answer to a call, and what is in force and held after it.
    type Told = (Option<Measure>, Option<Refusal>, Vec<u32>, Vec<(Vec<u8>, Vec<u32>)>);

    fn told(desk: &mut Worktable, call: u32) -> Told {
        let names = ["a", "b", "c", "d", "e", "f", "g", "h", "i", "j", "k", "", "seventeen letters"];
        let name = names[call as usize / 9 % names.len()].as_bytes();
        let done = |done: Result<(), Refusal>| (None, done.err());
        let (measure, refusal) = match call % 9 {
            0..=2 => match desk.ask(call / 7 % 6, [call / 11 % 9, call / 13 % 3, 0]) {
                Ok(measure) => (Some(measure), None),
                Err(refusal) => (None, Some(refusal)),
            },
            3 => done(desk.commit()),
            4..=6 => done(desk.save(name)),
            7 => done(desk.back(name)),
            _ => done(desk.drop_name(name)),
        };
        (measure, refusal, desk.list(), desk.layouts())
    }

    #[test]
    fn a_desk_of_markings_answers_as_the_engines_does() {
        let bytes = galley();
        let (mut engines, measure) = Worktable::open(&bytes, &LIST).expect("an accepted list");
        let (marked, same) = Marked::open(&bytes, &LIST).expect("an accepted list");
        assert!(!engines.is_marked() && measure == same);
        let (mut marked, mut number, mut kinds) = (Worktable::Marked(Box::new(marked)), 1_u32, Vec::new());
        for _ in 0..20_000 {
            number = number.wrapping_mul(1_664_525).wrapping_add(1_013_904_223);
            let (due, got) = (told(&mut engines, number >> 8), told(&mut marked, number >> 8));
            assert_eq!(got, due);
            kinds.extend(got.1.map(|refusal| refusal.kind).filter(|kind| !kinds.contains(kind)));
        }
        use RefusalKind::*;
        for kind in [NoSuchPage, NothingPending, BadName, NoSuchLayout, NoRoom, TooHigh, TooSoon, BadPage] {
            assert!(kinds.contains(&kind), "{kind:?}");
        }
    }

    #[test]
    fn ends_are_those_that_an_ask_accepts() {
        let bytes = galley();
        let read = Galley::decode(&bytes).expect("records in order");
        let (mut desk, _) = Worktable::open(&bytes, &LIST).expect("an accepted list");
        for page in 1..4 {
            let told = ends(&read, &bytes, &LIST, page, 1_000).expect("a page").expect("few");
            let all = between([0; 3], [8, 3, 0]).map(|place| place.map(|count| count as u32));
            let due: Vec<End> =
                all.filter_map(|place| desk.ask(page, place).ok().map(|measure| End { place, measure })).collect();
            assert_eq!(told, due);
            assert!(due.len() > 1 && ends(&read, &bytes, &LIST, page, 1) == Ok(None));
        }
        for page in [0, 4, 5] {
            assert_eq!(ends(&read, &bytes, &LIST, page, 9), refused(RefusalKind::NoSuchPage, page));
        }
    }
}
