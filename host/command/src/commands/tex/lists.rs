//! Page lists for the galleys of a document: galleys that follow on are made as one book.

use super::galleys::{Opens, Part};
use super::shipped::Shipped;
use super::Failure;
use crate::output::{say, watched};
use barleychime::engine::{self, Book, MakeError, Measure, Memory};
use barleychime::refusal::{Refusal, RefusalKind};
use barleychime::{fill, list};
use std::collections::BTreeSet;

/// What was made of a galley.
#[derive(Clone, Debug, Default)]
pub struct Made {
    /// The folio that it opens on, as far as that can be told before the pages are there.
    pub folio: u32,
    /// Its list; none where LaTeX makes its pages.
    pub list: Option<(Measure, Vec<u32>)>,
}

/// Pages that are printed and stay as they are: the galleys then, what was shipped, and the last such page of the PDF.
pub struct Printed {
    pub parts: Vec<Part>,
    pub shipped: Shipped,
    pub last: usize,
}

impl Printed {
    /// Whether what was printed is the document's beginning still: a galley is the same by its first line and its sum or, where it
    /// goes on after the printed pages, by what is on them.
    fn check(&self, parts: &[Part]) -> Result<(), Failure> {
        for (before, placed) in self.parts.iter().zip(&self.shipped.galleys) {
            let Some(&end) = placed.ends_up_to(self.last).last() else { continue };
            let now = parts.get(before.number - 1);
            let whole = placed.ends_by(self.last);
            let same = |now: &Part| now.begins_as(before, end) && (!whole || now.sum == before.sum);
            if !now.is_some_and(same) {
                let (number, printed) = (before.number, before.words.clone());
                let now = now.map(|now| now.words.clone());
                return Err(Failure::NotPrinted { last: self.last, number, printed, now });
            }
        }
        Ok(())
    }
}

/// The lists of a document.
#[derive(Default)]
pub struct Lists {
    pub made: Vec<Made>,
    /// The barriers that a list let a float pass, so that the galley is to end there.
    pub barriers: BTreeSet<u32>,
    /// What was said of galleys before, so that it is said once.
    said: BTreeSet<String>,
}

impl Lists {
    /// No lists yet; the barriers are those of a JOB.list.
    pub fn with_barriers(text: &str) -> Lists {
        let numbers = text.lines().filter_map(|row| row.strip_prefix("barrier ")?.parse().ok());
        Lists { barriers: numbers.collect(), ..Lists::default() }
    }

    /// Makes the lists anew; barriers stay, and those that a float passes come to them.
    pub fn make(&mut self, parts: &[Part], printed: Option<&Printed>) -> Result<(), Failure> {
        printed.map_or(Ok(()), |printed| printed.check(parts))?;
        self.made = Vec::new();
        while self.made.len() < parts.len() {
            let at = self.made.len();
            let folio = self.opening_folio(parts, at);
            match printed.and_then(|printed| Opening::of(&parts[at], printed)) {
                Some(opening) => self.keep(&parts[at], folio, &opening)?,
                None => {
                    let chain = chain(&parts[at..], printed);
                    self.make_chain(chain, folio)?;
                }
            }
        }
        for (part, made) in parts.iter().zip(&self.made) {
            self.barriers.extend(passed(part, made));
        }
        Ok(())
    }

    /// As JOB.list.
    pub fn text(&self, parts: &[Part]) -> String {
        let barriers = self.barriers.iter().map(|number| format!("barrier {number}\n"));
        let galleys = parts.iter().zip(&self.made).map(|(part, made)| {
            let words = if part.tables() > 0 { 3 } else { 2 };
            let list = made.list.as_ref().map_or(String::new(), |(measure, pages)| list::print(*measure, pages, words));
            format!("galley {} {} {}\n{list}", part.number, part.sum, made.folio)
        });
        barriers.chain(galleys).collect()
    }

    /// The folio that a galley opens on once those before it have their lists.
    fn opening_folio(&self, parts: &[Part], at: usize) -> u32 {
        let part = &parts[at];
        let Some((before, made)) = at.checked_sub(1).map(|at| (&parts[at], &self.made[at])) else { return part.folio };
        let Some((first, last)) = before.shipped else { return part.folio };
        let pages = made.list.as_ref().map_or(last - first + 1, |(measure, _)| measure.pages);
        let now = made.folio + pages;
        let side = |folio: u32| match part.opens {
            Opens::Right => folio | 1,
            Opens::Left => folio + folio % 2,
            Opens::Anywhere => folio,
        };
        match part.folio > last {
            true if part.opens != Opens::Anywhere && part.folio == side(last + 1) => side(now),
            true if part.opens == Opens::Anywhere => part.folio + now - (last + 1),
            _ => part.folio, // numbered anew
        }
    }

    fn keep(&mut self, part: &Part, folio: u32, opening: &Opening) -> Result<(), Failure> {
        let bytes = part.bytes(Some(folio))?;
        let answer = match opening {
            Opening::ByLaTeX => {
                self.made.push(Made { folio, list: None });
                return Ok(());
            }
            Opening::Whole(list) => {
                engine::mark(&bytes, list).map(|measure| (measure, list.clone())).map_err(MakeError::from)
            }
            Opening::Begun(list) => {
                Memory::new().make_after(&bytes, list).map(|(measure, pages)| (measure, pages.to_vec()))
            }
        };
        match answer {
            Ok(made) => self.made.push(Made { folio, list: Some(made) }),
            Err(error) => {
                return Err(Failure::Printed { number: part.number, words: part.words.clone(), error });
            }
        }
        Ok(())
    }

    /// Galleys that follow on, the first opening on a folio.
    fn make_chain(&mut self, chain: &[Part], folio: u32) -> Result<(), Failure> {
        let wanted = chain.iter().position(Part::has_floats);
        match wanted {
            _ if chain.is_empty() => Ok(()),
            Some(0) => {
                let last = chain.iter().rposition(Part::has_floats).unwrap_or(0);
                self.make_book(&chain[..=last], folio)?;
                chain[last + 1..].iter().for_each(|part| self.leave(part));
                Ok(())
            }
            // LaTeX makes the pages of a galley without floats before the first that has some: one at a time, for the next
            // folio.
            _ => {
                self.made.push(Made { folio, list: None });
                Ok(())
            }
        }
    }

    /// LaTeX makes the pages of a galley that follows on.
    fn leave(&mut self, part: &Part) {
        let folio = match (self.made.last(), part.shipped) {
            (Some(Made { folio, list: Some((measure, _)) }), _) => folio + measure.pages,
            _ => part.folio,
        };
        self.made.push(Made { folio, list: None });
    }

    /// Galleys that follow on and are to have lists: the longest beginning that has a pagination as a book, then the rest where
    /// that ends.
    fn make_book(&mut self, chapters: &[Part], folio: u32) -> Result<(), Failure> {
        let [first, rest @ ..] = chapters else { return Ok(()) };
        let mut bytes = vec![first.bytes(Some(folio))?];
        for part in rest {
            bytes.push(part.bytes(None)?);
        }
        let made = match self.longest_book(chapters, &bytes) {
            Some(book) => self.take(chapters, book)?,
            None => {
                self.make_one(first, folio)?;
                1
            }
        };
        let (last, Made { folio, list }) = (&chapters[made - 1], &self.made[self.made.len() - 1]);
        let pages = match (list, last.shipped) {
            (Some((measure, _)), _) => measure.pages,
            (None, Some((first, last))) => last - first + 1,
            _ => 1,
        };
        let next = folio + pages;
        self.make_book(&chapters[made..], next)
    }

    /// The longest beginning, of two galleys or more, that has a pagination as a book. Where a book has one each of its beginnings
    /// has one, so it is found by halves.
    fn longest_book(&mut self, chapters: &[Part], bytes: &[Vec<u8>]) -> Option<Book> {
        let (mut found, mut least, mut most) = (None, 1, bytes.len());
        let mut tried = most;
        while least < most {
            match engine::make_book(&bytes[..tried]) {
                Ok(book) => (found, least) = (Some(book), tried),
                Err(error) => {
                    if !no_pagination(&error) {
                        let (first, last) = (chapters[0].number, chapters[tried - 1].number);
                        self.remark(format!("galleys {first} to {last} as a book: {error}; fewer are made together"));
                    }
                    most = tried - 1;
                }
            }
            tried = least + (most - least).div_ceil(2);
        }
        found
    }

    /// The lists of a book's chapters; how many there are.
    fn take(&mut self, chapters: &[Part], book: Book) -> Result<usize, Failure> {
        let made = book.chapters.len();
        for (part, chapter) in chapters.iter().zip(book.chapters) {
            let folio = chapter.folio as u32;
            let measure = engine::mark(&part.bytes(Some(folio))?, &chapter.list);
            let measure = measure.map_err(|refusal| Failure::Unlike { number: part.number, refusal })?;
            self.made.push(Made { folio, list: Some((measure, chapter.list)) });
        }
        Ok(made)
    }

    fn make_one(&mut self, part: &Part, folio: u32) -> Result<(), Failure> {
        let bytes = part.bytes(Some(folio))?;
        let mut memory = Memory::new();
        let list = match memory.make(&bytes) {
            Ok((measure, pages)) => Some((measure, pages.to_vec())),
            Err(error) => {
                self.advise(part, &bytes, &error, &mut memory);
                None
            }
        };
        self.made.push(Made { folio, list });
        Ok(())
    }

    /// Why a galley has no list, and what would help.
    fn advise(&mut self, part: &Part, bytes: &[u8], error: &MakeError, memory: &mut Memory) {
        let name = format!("galley {}, {:?}", part.number, part.words);
        let mut remarks = vec![format!("{error}; LaTeX makes its pages")];
        if no_pagination(error) {
            let mut tell = |what: &str| {
                if watched() {
                    say(&format!("{name}: {what}"));
                }
            };
            remarks.extend(fill::advice(bytes, &[], memory, &mut tell));
        }
        for remark in remarks {
            self.remark(format!("{name}: {remark}"));
        }
    }

    /// Says what was not said before.
    fn remark(&mut self, remark: String) {
        if self.said.insert(remark.clone()) {
            say(&remark);
        }
    }
}

fn no_pagination(error: &MakeError) -> bool {
    matches!(error, MakeError::Refused(Refusal { kind: RefusalKind::NoPagination, .. }))
}

/// The first galley and those that follow on from it under the same page specification.
fn chain<'parts>(parts: &'parts [Part], printed: Option<&Printed>) -> &'parts [Part] {
    let on = |part: &Part| {
        part.follows && part.spec == parts[0].spec && printed.is_none_or(|printed| Opening::of(part, printed).is_none())
    };
    let length = 1 + parts[1..].iter().take_while(|part| on(part)).count();
    &parts[..length.min(200)]
}

/// What of a galley is printed.
enum Opening {
    /// All of it, as LaTeX made it; it makes it so again.
    ByLaTeX,
    Whole(Vec<u32>),
    Begun(Vec<u32>),
}

impl Opening {
    fn of(part: &Part, printed: &Printed) -> Option<Opening> {
        let placed = printed.shipped.galleys.get(part.number - 1)?;
        let ends = placed.ends_up_to(printed.last);
        let words = if part.tables() > 0 { 3 } else { 2 };
        let list: Vec<u32> = ends.iter().flat_map(|end| end[..words].to_vec()).collect();
        match (list.is_empty(), placed.ends_by(printed.last)) {
            (true, _) => None,
            (false, true) if !placed.by_list => Some(Opening::ByLaTeX),
            (false, true) => Some(Opening::Whole(list)),
            (false, false) => Some(Opening::Begun(list)),
        }
    }
}

/// The barriers of a galley that a float passes in its list: it stands on a later page than the line after the barrier.
fn passed<'part>(part: &'part Part, made: &'part Made) -> impl Iterator<Item = u32> + 'part {
    let words = if part.tables() > 0 { 3 } else { 2 };
    let holds = move |before: [u32; 3]| {
        let Some((_, pages)) = &made.list else { return true };
        let page = pages.chunks_exact(words).find(|page| page[0] > before[0]);
        page.is_none_or(|page| page[1] >= before[1] && page.get(2).copied().unwrap_or(0) >= before[2])
    };
    part.barriers.iter().filter(move |barrier| !holds(barrier.before)).map(|barrier| barrier.number)
}
