//! The engine: the functions of `include/barleychime.h`, safe to call. All unsafe code is here, in `chapters` and in `make_up`.
//!
//! One duty of the header is left to the caller, since no call can see it: the thread has [`STACK_BYTES`] of stack left, and for a
//! book [`BOOK_STACK_BYTES`]. The main thread has that, and so has every thread that `std::thread` starts with the stack it gives
//! by itself; one that is started with a smaller stack needs as much, and room for its own frames:
//!
//! ```
//! use barleychime::engine::{Memory, STACK_BYTES};
//!
//! let galley = barleychime::text::pack("GS 0 30 0 0 1 1 1\nTL 10 0 0 1\nTL 10 0 0 1\nED\n")?.bytes;
//! let small = std::thread::Builder::new().stack_size(STACK_BYTES + 32 * 1024);
//! let thread = small.spawn(move || Memory::new().make(&galley).map(|(measure, _)| measure.pages))?;
//! assert_eq!(thread.join().unwrap()?, 1);
//! # Ok::<(), Box<dyn std::error::Error>>(())
//! ```

mod chapters;
mod make_up;

pub use chapters::{forecast_book, make_book, make_book_in, Book, BookMaking, BookMeasure, Chapter};
pub use make_up::Desk;

use crate::refusal::{Refusal, RefusalKind};
use std::fmt;

#[allow(unsafe_code)]
mod c {
    use super::chapters::BOOK_WORDS;
    use super::make_up::{DESK_LIST_WORDS, DESK_WORDS};
    use super::{ANSWER_WORDS, FORECAST_WORDS};

    /// A call on a desk with a name.
    pub type Named = unsafe extern "C" fn(*const u8, usize, *mut [u32; DESK_WORDS], *mut [u32; ANSWER_WORDS]) -> u32;

    extern "C" {
        pub fn barleychime_make(
            galley: *const u8,
            galley_len: usize,
            work: *mut u32,
            work_len: usize,
            pages: *mut u32,
            pages_len: usize,
            answer: *mut [u32; ANSWER_WORDS],
        ) -> u32;
        pub fn barleychime_make_after(
            galley: *const u8,
            galley_len: usize,
            opening: *const u32,
            opening_len: usize,
            work: *mut u32,
            work_len: usize,
            pages: *mut u32,
            pages_len: usize,
            answer: *mut [u32; ANSWER_WORDS],
        ) -> u32;
        pub fn barleychime_book(
            galleys: *const u8,
            galleys_len: usize,
            lengths: *const u32,
            lengths_len: usize,
            work: *mut u32,
            work_len: usize,
            pages: *mut u32,
            pages_len: usize,
            answer: *mut [u64; BOOK_WORDS],
        ) -> u32;
        pub fn barleychime_mark(
            galley: *const u8,
            galley_len: usize,
            pages: *const u32,
            pages_len: usize,
            answer: *mut [u32; ANSWER_WORDS],
        ) -> u32;
        pub fn barleychime_forecast(galley: *const u8, galley_len: usize, forecast: *mut [u32; FORECAST_WORDS]) -> u32;
        pub fn barleychime_report(marks: *const super::Mark, marks_len: usize, report: *mut [u64; 11]) -> u32;
        pub fn barleychime_section(size: u32, numbers: *mut [u32; 64], answer: *mut [u32; 2]) -> u32;
        pub fn barleychime_desk_open(
            galley: *const u8,
            galley_len: usize,
            list: *const u32,
            list_len: usize,
            desk: *mut [u32; DESK_WORDS],
            answer: *mut [u32; ANSWER_WORDS],
        ) -> u32;
        pub fn barleychime_desk_ask(
            galley: *const u8,
            galley_len: usize,
            page: u32,
            end: *const [u32; 3],
            desk: *mut [u32; DESK_WORDS],
            answer: *mut [u32; ANSWER_WORDS],
        ) -> u32;
        pub fn barleychime_desk_commit(desk: *mut [u32; DESK_WORDS], answer: *mut [u32; ANSWER_WORDS]) -> u32;
        pub fn barleychime_desk_save(
            name: *const u8,
            name_len: usize,
            desk: *mut [u32; DESK_WORDS],
            answer: *mut [u32; ANSWER_WORDS],
        ) -> u32;
        pub fn barleychime_desk_back(
            name: *const u8,
            name_len: usize,
            desk: *mut [u32; DESK_WORDS],
            answer: *mut [u32; ANSWER_WORDS],
        ) -> u32;
        pub fn barleychime_desk_drop(
            name: *const u8,
            name_len: usize,
            desk: *mut [u32; DESK_WORDS],
            answer: *mut [u32; ANSWER_WORDS],
        ) -> u32;
        pub fn barleychime_desk_list(
            desk: *const [u32; DESK_WORDS],
            pages: *mut [u32; DESK_LIST_WORDS],
            answer: *mut [u32; ANSWER_WORDS],
        ) -> u32;
    }
}

/// Bytes of stack that a call takes at most, but for that of a book.
pub const STACK_BYTES: usize = 242_176;
/// Bytes of stack that making a book takes at most.
pub const BOOK_STACK_BYTES: usize = 244_224;

/// Words of an answer, of making and of marking.
const ANSWER_WORDS: usize = 9;
/// Words of a forecast.
const FORECAST_WORDS: usize = 6;

/// What a valid list comes to.
#[derive(Clone, Copy, Debug, PartialEq, Eq)]
pub struct Measure {
    /// p: the pages.
    pub pages: u32,
    /// X: the turns from citations to their figures and tables.
    pub x: u32,
    /// Y: the turns from the first page to the last.
    pub y: u32,
    /// T: the weighted sum of X and Y.
    pub turns: u32,
    /// W: what all pages but the last lack of htMax, however loose they are.
    pub white: u32,
}

/// What making gives besides the list.
#[derive(Clone, Copy, Debug, PartialEq, Eq)]
pub struct Making {
    /// What the list comes to, or why there is none.
    pub answer: Result<Measure, Refusal>,
    /// Every possible page, counted: the pairs of a start and an end, reached or not, with something between them whose
    /// tightest height is at most htMax. The search looks at far fewer. The count is there on success and where no pagination
    /// exists (11), and 0 with every other refusal.
    pub weighed: u64,
}

/// What is told of a galley beforehand.
#[derive(Clone, Copy, Debug, PartialEq, Eq)]
pub struct Forecast {
    /// Words of work area that making needs.
    pub work: u32,
    /// Words of page list that making needs.
    pub list: u32,
    /// No making of the galley weighs more pages.
    pub ceiling: u64,
}

/// Tells of a galley beforehand what making needs, and how many pages it weighs at most. A galley that is refused is
/// refused as making and marking refuse it, with one of 1 to 8.
#[allow(unsafe_code)]
pub fn forecast(galley: &[u8]) -> Result<Forecast, Refusal> {
    let mut words = [0; FORECAST_WORDS];
    // SAFETY: the bytes are those of a slice, and the engine writes the words alone.
    unsafe {
        c::barleychime_forecast(galley.as_ptr(), galley.len(), &mut words);
    }
    let [number, place, work, list, low, high] = words;
    unless(number, place, Forecast { work, list, ceiling: wide(low, high) })
}

/// What the engine tells, unless its number is a refusal's.
fn unless<Told>(number: u32, place: u32, told: Told) -> Result<Told, Refusal> {
    Refusal::of(number, place).map_or(Ok(told), Err)
}

fn wide(low: u32, high: u32) -> u64 {
    u64::from(high) << 32 | u64::from(low)
}

/// Makes a galley's pages in lent memory, of any contents: for m lines, n figures and k tables 10·(m + 1)·(n + 1)·(k + 1)
/// words of work, and 2·(m + n) words of list, or 3·(m + n + k) where there are tables. [`forecast`] tells them.
#[allow(unsafe_code)]
pub fn make_in(galley: &[u8], work: &mut [u32], pages: &mut [u32]) -> Making {
    let mut answer = [0; ANSWER_WORDS];
    // SAFETY: the areas are those of slices that the borrow checker keeps apart, and the engine reads and writes nothing
    // else.
    unsafe {
        c::barleychime_make(
            galley.as_ptr(),
            galley.len(),
            work.as_mut_ptr(),
            work.len(),
            pages.as_mut_ptr(),
            pages.len(),
            &mut answer,
        );
    }
    made(answer)
}

/// Makes a galley's pages after an opening that is printed, [`page_words`] words a page: of the lists that begin with it the
/// one with the fewest turns, the opening included. Without words it is [`make_in`]. The opening is refused with 20 if it ends
/// within a page or a page breaks one of rules 13 to 17, and with 21 if it places everything.
#[allow(unsafe_code)]
pub fn make_after_in(galley: &[u8], opening: &[u32], work: &mut [u32], pages: &mut [u32]) -> Making {
    let mut answer = [0; ANSWER_WORDS];
    // SAFETY: as in `make_in`.
    unsafe {
        c::barleychime_make_after(
            galley.as_ptr(),
            galley.len(),
            opening.as_ptr(),
            opening.len(),
            work.as_mut_ptr(),
            work.len(),
            pages.as_mut_ptr(),
            pages.len(),
            &mut answer,
        );
    }
    made(answer)
}

/// Marks a page list: [`page_words`] words a page.
#[allow(unsafe_code)]
pub fn mark(galley: &[u8], pages: &[u32]) -> Result<Measure, Refusal> {
    let mut answer = [0; ANSWER_WORDS];
    // SAFETY: as in `make_in`.
    unsafe {
        c::barleychime_mark(galley.as_ptr(), galley.len(), pages.as_ptr(), pages.len(), &mut answer);
    }
    made(answer).answer
}

fn made([number, place, pages, x, y, turns, low, high, white]: [u32; ANSWER_WORDS]) -> Making {
    Making { answer: unless(number, place, Measure { pages, x, y, turns, white }), weighed: wide(low, high) }
}

/// Why there is no list: the galley is refused, or there is no memory for making it.
#[derive(Clone, Copy, Debug, PartialEq, Eq)]
#[non_exhaustive]
pub enum MakeError {
    /// The engine turned the work away.
    Refused(Refusal),
    /// The memory that making needs cannot be had.
    NoMemory {
        /// How much it needs.
        bytes: u64,
    },
}

impl From<Refusal> for MakeError {
    fn from(refusal: Refusal) -> Self {
        MakeError::Refused(refusal)
    }
}

impl fmt::Display for MakeError {
    fn fmt(&self, out: &mut fmt::Formatter) -> fmt::Result {
        match self {
            MakeError::Refused(refusal) => refusal.fmt(out),
            MakeError::NoMemory { bytes } => {
                let megabytes = bytes.div_ceil(1_000_000);
                write!(out, "making needs {megabytes} MB of memory, and there is not so much")
            }
        }
    }
}

impl std::error::Error for MakeError {
    fn source(&self) -> Option<&(dyn std::error::Error + 'static)> {
        match self {
            MakeError::Refused(refusal) => Some(refusal),
            MakeError::NoMemory { .. } => None,
        }
    }
}

/// Memory for making, kept from one galley to the next. It grows to what the forecast tells.
#[derive(Default)]
pub struct Memory {
    work: Vec<u32>,
    pages: Vec<u32>,
    weighed: u64,
}

impl Memory {
    /// No memory yet.
    pub fn new() -> Self {
        Self::default()
    }

    /// Makes a galley's pages: the measure, and the list, of [`page_words`] words a page.
    ///
    /// ```
    /// use barleychime::engine::{MakeError, Memory};
    /// use barleychime::refusal::RefusalKind;
    ///
    /// let galley = barleychime::text::pack("GS 0 30 0 0 1 1 1\nTL 10 0 0 1\nTL 10 0 0 1\nED\n")?.bytes;
    /// let mut memory = Memory::new();
    /// let (measure, list) = memory.make(&galley)?;
    /// assert_eq!((measure.pages, measure.turns, list), (1, 0, &[2, 0][..]));
    /// let MakeError::Refused(refusal) = memory.make(b"").unwrap_err() else { unreachable!() };
    /// assert_eq!(refusal.kind, RefusalKind::StopsShort);
    /// # Ok::<(), Box<dyn std::error::Error>>(())
    /// ```
    pub fn make(&mut self, galley: &[u8]) -> Result<(Measure, &[u32]), MakeError> {
        self.make_after(galley, &[])
    }

    /// Makes a galley's pages after an opening that is printed, as [`make_after_in`] has it.
    pub fn make_after(&mut self, galley: &[u8], opening: &[u32]) -> Result<(Measure, &[u32]), MakeError> {
        self.weighed = 0;
        let told = forecast(galley)?;
        self.grow(&told)?;
        let Making { answer, weighed } = make_after_in(galley, opening, &mut self.work, &mut self.pages);
        self.weighed = weighed;
        let measure = answer?;
        let words = page_words(galley)? * measure.pages as usize;
        Ok((measure, &self.pages[..words]))
    }

    /// The pages weighed by the last making, as [`Making`] has them.
    pub fn weighed(&self) -> u64 {
        self.weighed
    }

    /// Room for what was told. Memory that cannot be had is an error, and what there was is kept.
    fn grow(&mut self, told: &Forecast) -> Result<(), MakeError> {
        let area = |area: &mut Vec<u32>, words: u32| {
            let more = (words as usize).saturating_sub(area.len());
            area.try_reserve_exact(more)?;
            area.resize(area.len() + more, 0);
            Ok(())
        };
        let grown = area(&mut self.work, told.work).and_then(|()| area(&mut self.pages, told.list));
        grown.map_err(|_: std::collections::TryReserveError| MakeError::NoMemory { bytes: told.bytes() })
    }
}

impl Forecast {
    /// The bytes of work area and page list together.
    pub fn bytes(&self) -> u64 {
        4 * (u64::from(self.work) + u64::from(self.list))
    }
}

/// Whether the galley reads without refusal; otherwise one of 1 to 8.
pub fn read(galley: &[u8]) -> Result<(), Refusal> {
    page_words(galley).map(|_| ())
}

/// The words that a page takes in a list for this galley: the lines and the figures placed so far and, where there are
/// tables, the tables. A galley that is refused has no lists; the refusal is one of 1 to 8.
pub fn page_words(galley: &[u8]) -> Result<usize, Refusal> {
    // A galley is read before its list. Two words are a page, and no page too many, or else they break rule 12.
    match mark(galley, &[0, 0]) {
        Err(refusal) if refusal.kind.is_of_galley() => Err(refusal),
        Err(Refusal { kind: RefusalKind::BadList, .. }) => Ok(3),
        _ => Ok(2),
    }
}

/// The pages of a stitched section as they stand on its nested sheets, in lent memory: four a sheet, front left and right,
/// back left and right, the outermost sheet first. A size is a multiple of 4 from 4 to 64; any other is refused with 33.
#[allow(unsafe_code)]
pub fn section(size: u32, numbers: &mut [u32; 64]) -> Result<&[u32], Refusal> {
    let mut answer = [0; 2];
    // SAFETY: the areas are those of arrays that the borrow checker keeps apart, and the engine writes nothing else.
    unsafe {
        c::barleychime_section(size, numbers, &mut answer);
    }
    match Refusal::of(answer[0], answer[1]) {
        None => Ok(&numbers[..size as usize]),
        Some(refusal) => Err(refusal),
    }
}

/// The mark of one paper: what its list comes to, and the engine's turns for the same galley.
#[derive(Clone, Copy, Debug, PartialEq, Eq)]
#[repr(C)]
pub struct Mark {
    /// p of the list.
    pub pages: u32,
    /// X of the list.
    pub x: u32,
    /// Y of the list.
    pub y: u32,
    /// T of the list.
    pub turns: u32,
    /// The engine's T.
    pub engine: u32,
}

/// The report on marked papers: four sums, the least and the greatest turns, and the mean excess over the engine as a sum
/// and a count.
#[derive(Clone, Copy, Debug, PartialEq, Eq)]
pub struct Report {
    /// How many papers there are.
    pub papers: u64,
    /// The sum of p.
    pub pages: u64,
    /// The sum of X.
    pub x: u64,
    /// The sum of Y.
    pub y: u64,
    /// The sum of T.
    pub turns: u64,
    /// The least T.
    pub least: u64,
    /// The greatest T.
    pub greatest: u64,
    /// The sum of what each T is above the engine's.
    pub excess: u64,
    /// How many papers the mean excess is over.
    pub count: u64,
}

/// Reports on up to 10,000 marked papers.
#[allow(unsafe_code)]
pub fn report(marks: &[Mark]) -> Result<Report, Refusal> {
    let mut words = [0; 11];
    // SAFETY: the marks are those of a slice, in C's layout, and the engine writes the words alone.
    let number = unsafe { c::barleychime_report(marks.as_ptr(), marks.len(), &mut words) };
    let [_, place, papers, pages, x, y, turns, least, greatest, excess, count] = words;
    // A place is 0 or one of 10,000 papers.
    unless(number, place as u32, Report { papers, pages, x, y, turns, least, greatest, excess, count })
}
