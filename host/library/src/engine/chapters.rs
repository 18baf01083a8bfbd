//! A whole book from its chapters, each of which opens on the folio after the one before.

use super::{c, forecast, page_words, unless, Forecast, MakeError, Memory};
use crate::galley::Galley;
use crate::refusal::{Refusal, RefusalKind};

/// Words of the answer for a book, of 64 bits.
pub(super) const BOOK_WORDS: usize = 8;

/// What a book comes to: its chapters' sums, but for Y, which is from its first page to its last.
#[derive(Clone, Copy, Debug, PartialEq, Eq)]
pub struct BookMeasure {
    /// p: the pages.
    pub pages: u64,
    /// X: the turns from citations to their figures and tables.
    pub x: u64,
    /// Y: the turns from the first page to the last.
    pub y: u64,
    /// T: the weighted sum of X and Y.
    pub turns: u64,
    /// W, the sum of the chapters'.
    pub white: u64,
}

/// What making a book gives besides the list.
#[derive(Clone, Copy, Debug, PartialEq, Eq)]
pub struct BookMaking {
    /// What the book comes to, or why there is none.
    pub answer: Result<BookMeasure, Refusal>,
    /// The pages weighed in all chapters, as [`Making`](super::Making) has them.
    pub weighed: u64,
}

/// A book that was made.
#[derive(Clone, Debug, PartialEq, Eq)]
pub struct Book {
    /// What it comes to.
    pub measure: BookMeasure,
    /// Its chapters, in their order.
    pub chapters: Vec<Chapter>,
}

/// A chapter of a book that was made.
#[derive(Clone, Debug, PartialEq, Eq)]
pub struct Chapter {
    /// The folio of its first page.
    pub folio: u64,
    /// The words that a page takes in its list.
    pub page_words: usize,
    /// Its page list.
    pub list: Vec<u32>,
}

impl Chapter {
    /// How many pages it has.
    pub fn pages(&self) -> usize {
        self.list.len() / self.page_words
    }
}

/// Makes a book in lent memory, of any contents, from chapters that are lent end to end, with the bytes of each: twice the words
/// of work that the largest chapter needs, and the words of list of all of them. The pages of the chapters follow one another,
/// each in its own two or three words a page. [`forecast_book`] tells the lengths. 28 is no chapter, more than 200 or lengths
/// that do not add up; then the first chapter that is refused by itself (1 to 8), is unlike the first (29) or states a folio
/// though it is a later one (30) is the place. 11 means that no choice of chapter lists makes a book.
#[allow(unsafe_code)]
pub fn make_book_in(galleys: &[u8], lengths: &[u32], work: &mut [u32], pages: &mut [u32]) -> BookMaking {
    let mut answer = [0; BOOK_WORDS];
    // SAFETY: the areas are those of slices that the borrow checker keeps apart, and the engine reads and writes nothing else.
    unsafe {
        c::barleychime_book(
            galleys.as_ptr(),
            galleys.len(),
            lengths.as_ptr(),
            lengths.len(),
            work.as_mut_ptr(),
            work.len(),
            pages.as_mut_ptr(),
            pages.len(),
            &mut answer,
        );
    }
    let [number, place, pages, x, y, turns, white, weighed] = answer;
    // Both are of 32 bits, and so are the words that 9 and 10 ask for.
    let answer = unless(number as u32, place as u32, BookMeasure { pages, x, y, turns, white });
    BookMaking { answer, weighed }
}

/// Makes a book of chapters, each a galley: of all choices of lists, each valid where its chapter opens, the one with the fewest
/// turns, and of these with the least white space. Refused as [`make_book_in`] has it.
pub fn make_book<Bytes: AsRef<[u8]>>(chapters: &[Bytes]) -> Result<Book, MakeError> {
    let told = forecast_book(chapters)?;
    let (galleys, lengths) = end_to_end(chapters);
    let mut memory = Memory::new();
    memory.grow(&told)?;
    let Memory { mut work, mut pages, .. } = memory;
    let measure = make_book_in(&galleys, &lengths, &mut work, &mut pages).answer?;
    // A chapter that is not the first has no folio of its own.
    let first = chapters.first().and_then(|bytes| Galley::decode(bytes.as_ref()));
    let (mut folio, mut rest) = (first.map_or(1, |galley| galley.folio as u64), &pages[..]);
    let mut made = Vec::new();
    for bytes in chapters {
        let chapter = chapter(bytes.as_ref(), folio, rest)?;
        folio += chapter.pages() as u64;
        rest = &rest[chapter.list.len()..];
        made.push(chapter);
    }
    Ok(Book { measure, chapters: made })
}

/// The chapter whose pages these words begin with: they end with the page that places everything.
fn chapter(bytes: &[u8], folio: u64, words: &[u32]) -> Result<Chapter, Refusal> {
    let page_words = page_words(bytes)?;
    let blocks = forecast(bytes)?.list / page_words as u32;
    let unfinished = |page: &&[u32]| page.iter().sum::<u32>() < blocks;
    let pages = words.chunks_exact(page_words).take_while(unfinished).count() + 1;
    Ok(Chapter { folio, page_words, list: words[..pages * page_words].to_vec() })
}

/// Tells of a book beforehand what making it needs, and how many pages it weighs at most. A book that making would refuse for its
/// chapters is refused alike.
pub fn forecast_book<Bytes: AsRef<[u8]>>(chapters: &[Bytes]) -> Result<Forecast, Refusal> {
    let (galleys, lengths) = end_to_end(chapters);
    // In no memory a book is refused for its chapters, or else for the memory.
    match make_book_in(&galleys, &lengths, &mut [], &mut []).answer {
        Err(refusal) if refusal.kind != RefusalKind::WorkTooShort => return Err(refusal),
        _ => (),
    }
    let mut told = Forecast { work: 0, list: 0, ceiling: 0 };
    for bytes in chapters {
        let one = forecast(bytes.as_ref())?;
        told.work = told.work.max(2 * one.work);
        told.list += one.list;
        told.ceiling += one.ceiling;
    }
    Ok(told)
}

/// The bytes of all chapters, and the length of each. A chapter too long for a length of 32 bits is too long by far: the sum is
/// then none of these bytes', and the book is refused.
fn end_to_end<Bytes: AsRef<[u8]>>(chapters: &[Bytes]) -> (Vec<u8>, Vec<u32>) {
    let length = |bytes: &Bytes| u32::try_from(bytes.as_ref().len()).unwrap_or(u32::MAX);
    (chapters.iter().flat_map(|bytes| bytes.as_ref().iter().copied()).collect(), chapters.iter().map(length).collect())
}
