//! With which page ends turns are lost for good: after them no list, however its later pages end, has as few turns as before.
//!
//! Of a list that the marking accepts, let best(q) be the turns of the best list that begins with its first q pages. A list that
//! begins with q pages begins with fewer of them, so that best never falls as q grows, and the end of page q loses
//! best(q) − best(q − 1). Where best is the same at both ends of an interval nothing is lost within it, and that is found by halves.

use crate::engine::{MakeError, Measure, Memory};
use crate::galley::Galley;
use crate::page::{spread, Page};
use std::collections::BTreeMap;

/// A page end with which turns are lost for good.
#[derive(Clone, Debug, PartialEq, Eq)]
pub struct Loss {
    /// The page, counted from 1.
    pub page: usize,
    /// The last line that is placed when it ends; 0 before any.
    pub line: usize,
    /// The turns that are lost, weighted as T is.
    pub turns: u32,
    /// The figures and tables that wait longer in the best list after this page than in the best after the one before: `F9`, `T4`.
    pub floats: Vec<String>,
    /// How many turns more there are from the first page to the last.
    pub leaves: usize,
}

/// A list and what it comes to.
#[derive(Clone, Debug, PartialEq, Eq)]
pub struct Best {
    /// What it comes to.
    pub measure: Measure,
    /// The list itself.
    pub list: Vec<u32>,
}

/// Finds where turns are lost, in one list of a galley after another. The best list of all is made once.
pub struct Finder<'a> {
    bytes: &'a [u8],
    galley: &'a Galley,
    memory: Memory,
    best: Option<Best>,
}

impl<'a> Finder<'a> {
    /// For a galley that reads without refusal: its bytes, and what they hold.
    pub fn new(bytes: &'a [u8], galley: &'a Galley) -> Self {
        Finder { bytes, galley, memory: Memory::new(), best: None }
    }

    /// The best list of the galley.
    pub fn best(&mut self) -> Result<&Best, MakeError> {
        let best = match self.best.take() {
            Some(best) => best,
            None => made_after(&mut self.memory, self.bytes, &[])?,
        };
        Ok(self.best.insert(best))
    }

    /// The page ends of an accepted list with which turns are lost for good.
    pub fn losses(&mut self, list: &[u32], measure: Measure) -> Result<Vec<Loss>, MakeError> {
        let best = self.best()?.clone();
        let (memory, bytes) = (&mut self.memory, self.bytes);
        lost_for_good(self.galley, Best { measure, list: list.to_vec() }, best, |opening| {
            made_after(memory, bytes, opening)
        })
    }
}

fn made_after(memory: &mut Memory, bytes: &[u8], opening: &[u32]) -> Result<Best, MakeError> {
    memory.make_after(bytes, opening).map(|(measure, list)| Best { measure, list: list.to_vec() })
}

/// The page ends of an accepted list with which turns are lost for good, in order; the best list of all is handed in, too.
/// `make_after` makes the best list that begins with some first pages of the list.
pub fn lost_for_good<Error>(
    galley: &Galley,
    list: Best,
    best: Best,
    make_after: impl FnMut(&[u32]) -> Result<Best, Error>,
) -> Result<Vec<Loss>, Error> {
    let words = galley.page_words();
    let (pages, printed) = (list.list.len() / words, list.list.clone());
    let mut search = Search { list: &printed, words, bests: BTreeMap::from([(0, best), (pages, list)]), make_after };
    let mut ends = Vec::new();
    search.between(0, pages, &mut ends)?;
    let told = ends.into_iter().map(|page| loss(galley, page, &search.bests[&(page - 1)], &search.bests[&page]));
    Ok(told.collect())
}

/// The best lists after some first pages of a list, each made once.
struct Search<'a, Make> {
    list: &'a [u32],
    words: usize,
    bests: BTreeMap<usize, Best>,
    make_after: Make,
}

impl<Error, Make: FnMut(&[u32]) -> Result<Best, Error>> Search<'_, Make> {
    fn turns(&mut self, pages: usize) -> Result<u32, Error> {
        if !self.bests.contains_key(&pages) {
            let best = (self.make_after)(&self.list[..self.words * pages])?;
            self.bests.insert(pages, best);
        }
        Ok(self.bests[&pages].measure.turns)
    }

    /// Adds the pages after the first so many and up to others whose ends lose turns.
    fn between(&mut self, before: usize, after: usize, ends: &mut Vec<usize>) -> Result<(), Error> {
        if self.turns(before)? == self.turns(after)? {
            return Ok(());
        }
        if after == before + 1 {
            ends.push(after);
            return Ok(());
        }
        let middle = before + (after - before) / 2;
        self.between(before, middle, ends)?;
        self.between(middle, after, ends)
    }
}

/// What the end of a page loses: the best list before it against the best after it.
fn loss(galley: &Galley, page: usize, before: &Best, after: &Best) -> Loss {
    let (sooner, later) = (Page::all(galley, &before.list), Page::all(galley, &after.list));
    let (waited, waits) = (turns_of_floats(galley, &sooner), turns_of_floats(galley, &later));
    let longer = waits.into_iter().zip(waited).filter(|((_, now), (_, then))| now > then);
    let floats = if galley.spec.alpha > 0 { longer.map(|((name, _), _)| name).collect() } else { vec![] };
    let more = if galley.spec.beta > 0 { leaves(galley, later.len()) } else { 0 };
    Loss {
        page,
        line: later[page - 1].end[0],
        turns: after.measure.turns.saturating_sub(before.measure.turns),
        floats,
        leaves: more.saturating_sub(leaves(galley, sooner.len())),
    }
}

/// Turns from the first page to the last of so many.
fn leaves(galley: &Galley, pages: usize) -> usize {
    spread(galley, pages) - spread(galley, 1)
}

/// Every figure and every table by its name, `F1` or `T1`, with the turns from its citation to it in an accepted list.
pub fn turns_of_floats(galley: &Galley, pages: &[Page]) -> Vec<(String, usize)> {
    let on = |stream: usize, number: usize| {
        let page = pages.partition_point(|page| page.end[stream] < number) + 1;
        spread(galley, page)
    };
    let streams = galley.floats().into_iter().zip(["F", "T"]);
    let floats = streams.flat_map(|((stream, _, floats), letter)| {
        let numbered = (1..).zip(floats);
        numbered.map(move |(number, float)| (stream, format!("{letter}{number}"), number, float.citation))
    });
    floats.map(|(stream, name, number, citation)| (name, on(stream, number).saturating_sub(on(0, citation)))).collect()
}

impl Loss {
    /// `page 4 ends after line 152: 2 turns lost for good, F9 and T4`.
    pub fn in_words(&self) -> String {
        let end = match self.line {
            0 => "before any line".into(),
            line => format!("after line {line}"),
        };
        let turns = if self.turns == 1 { "1 turn".into() } else { format!("{} turns", self.turns) };
        format!("page {} ends {end}: {turns} lost for good, {}", self.page, self.by_what())
    }

    /// What the turns are: `F9 and T4`, `F2 to F5, T1 and a leaf more`.
    fn by_what(&self) -> String {
        let mut parts = runs(&self.floats);
        match self.leaves {
            0 => {}
            1 => parts.push("a leaf more".into()),
            more => parts.push(format!("{more} leaves more")),
        }
        match parts.as_slice() {
            [] => String::new(),
            [one] => one.clone(),
            [others @ .., last] => format!("{} and {last}", others.join(", ")),
        }
    }
}

/// Where turns are lost in one word, for a row among others: `4:2,9:1` is 2 turns with the end of page 4 and one with that of page 9, and
/// `-` is none.
pub fn column(losses: &[Loss]) -> String {
    match losses {
        [] => "-".into(),
        _ => losses.iter().map(|loss| format!("{}:{}", loss.page, loss.turns)).collect::<Vec<_>>().join(","),
    }
}

/// Names in order, with three or more of one kind in a row as `F2 to F5`.
fn runs(names: &[String]) -> Vec<String> {
    let numbered = |name: &String| name[1..].parse::<usize>().unwrap_or(0);
    let follows = |one: &String, two: &String| one[..1] == two[..1] && numbered(one) + 1 == numbered(two);
    let runs = names.chunk_by(follows);
    let told = runs.flat_map(|run| match run {
        [first, _, .., last] => vec![format!("{first} to {last}")],
        few => few.to_vec(),
    });
    told.collect()
}

#[cfg(test)]
mod tests {
    use super::*;
    use crate::text::pack;

    /// Ten lines of 10, pages of one line: so many pages, and no float.
    fn galley() -> Galley {
        let text = format!("GS 0 10 0 0 1 1 1\n{}ED\n", "TL 10 0 0 1\n".repeat(10));
        Galley::decode(&pack(&text).expect("a galley").bytes).expect("records in order")
    }

    fn best(turns: u32) -> Best {
        let measure = Measure { pages: 10, x: 0, y: turns, turns, white: 0 };
        Best { measure, list: (1..=10).flat_map(|line| [line, 0]).collect() }
    }

    #[test]
    fn halves_find_every_page_end_that_loses_and_make_few_lists() {
        // After so many pages the best list has so many turns.
        let turns = [4, 4, 4, 6, 6, 6, 6, 6, 6, 7, 7];
        let mut made = 0;
        let losses = lost_for_good(&galley(), best(turns[10]), best(turns[0]), |opening| {
            made += 1;
            Ok::<_, ()>(best(turns[opening.len() / 2]))
        });
        let told: Vec<_> = losses.expect("no error").iter().map(|loss| (loss.page, loss.line, loss.turns)).collect();
        assert_eq!((told, made), (vec![(3, 3, 2), (9, 9, 1)], 6));
    }

    #[test]
    fn nothing_is_made_where_nothing_is_lost() {
        let losses = lost_for_good(&galley(), best(4), best(4), |_| Err("made"));
        assert_eq!(losses, Ok(vec![]));
    }

    #[test]
    fn an_error_ends_the_search() {
        assert_eq!(lost_for_good(&galley(), best(5), best(4), |_| Err("no memory")), Err("no memory"));
    }

    #[test]
    fn floats_in_a_row_are_told_as_one() {
        let floats = ["F2", "F3", "F4", "F6", "F7", "T1"].map(String::from).to_vec();
        let loss = Loss { page: 4, line: 0, turns: 9, floats, leaves: 2 };
        let words = "page 4 ends before any line: 9 turns lost for good, F2 to F4, F6, F7, T1 and 2 leaves more";
        assert_eq!(loss.in_words(), words);
        assert_eq!((column(&[loss.clone(), Loss { page: 7, ..loss }]), column(&[])), ("4:9,7:9".into(), "-".into()));
    }
}
