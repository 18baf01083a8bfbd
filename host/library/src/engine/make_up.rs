//! The make-up desk: the end of a page is tried before the list is changed, and layouts are kept to come back to.

use super::{c, made, page_words, Measure, ANSWER_WORDS};
use crate::refusal::Refusal;

/// Words of the longest list on a desk: 64 pages of three words.
pub(super) const DESK_LIST_WORDS: usize = 192;
/// Words before the layouts: what is pending, and the list in force.
const LAYOUTS_AT: usize = 6 + DESK_LIST_WORDS;
/// Words of a layout: the length of its name, the name, and a list.
const LAYOUT_WORDS: usize = 1 + LONGEST_NAME / 4 + DESK_LIST_WORDS;
/// Bytes of the longest name of a layout.
const LONGEST_NAME: usize = 16;
/// Words of a desk, with eight layouts.
pub(super) const DESK_WORDS: usize = LAYOUTS_AT + 8 * LAYOUT_WORDS;

/// A desk on a galley: the list in force, which the marking accepts, a page end that may be pending, and up to eight layouts
/// under names. It holds on to the galley that it was opened on, so that every call is about the same.
#[derive(Clone)]
pub struct Desk<'galley> {
    galley: &'galley [u8],
    page_words: usize,
    words: [u32; DESK_WORDS],
}

impl<'galley> Desk<'galley> {
    /// Opens a desk on a galley and a list of [`page_words`] words a page, and measures the list. A galley that is refused is
    /// refused as ever; 22 is a list that the marking does not accept, or one of more than 64 pages.
    #[allow(unsafe_code)]
    pub fn open(galley: &'galley [u8], list: &[u32]) -> Result<(Self, Measure), Refusal> {
        let mut desk = Desk { galley, page_words: page_words(galley)?, words: [0; DESK_WORDS] };
        let mut answer = [0; ANSWER_WORDS];
        // SAFETY: the areas are those of slices and arrays that the borrow checker keeps apart, and the engine writes the last two
        // alone.
        unsafe {
            c::barleychime_desk_open(
                galley.as_ptr(),
                galley.len(),
                list.as_ptr(),
                list.len(),
                &mut desk.words,
                &mut answer,
            );
        }
        made(answer).answer.map(|measure| (desk, measure))
    }

    /// Measures the list in force with another end of a page: the lines, the figures and the tables placed so far; tables are
    /// not looked at where the galley has none. If the marking accepts the altered list it is pending, in place of any
    /// other; after a refusal nothing is. 23 is a page that is not one of the list in force, or is its last. The list in
    /// force stays as it is.
    #[allow(unsafe_code)]
    pub fn ask(&mut self, page: u32, end: [u32; 3]) -> Result<Measure, Refusal> {
        let mut answer = [0; ANSWER_WORDS];
        // SAFETY: as in `open`.
        unsafe {
            c::barleychime_desk_ask(self.galley.as_ptr(), self.galley.len(), page, &end, &mut self.words, &mut answer);
        }
        made(answer).answer
    }

    /// Puts the pending list in force; then nothing is pending. 24 where nothing is.
    #[allow(unsafe_code)]
    pub fn commit(&mut self) -> Result<(), Refusal> {
        let mut answer = [0; ANSWER_WORDS];
        // SAFETY: as in `open`.
        unsafe {
            c::barleychime_desk_commit(&mut self.words, &mut answer);
        }
        made(answer).answer.map(|_| ())
    }

    /// Keeps the list in force as the layout of a name, of 1 to 16 bytes, in place of what was there. 25 is another length of
    /// a name, 27 a ninth name. What is pending stays.
    pub fn save(&mut self, name: &[u8]) -> Result<(), Refusal> {
        self.named(c::barleychime_desk_save, name)
    }

    /// Puts the layout of a name in force; then nothing is pending. 25 as for [`Desk::save`], 26 where the name is not held.
    pub fn back(&mut self, name: &[u8]) -> Result<(), Refusal> {
        self.named(c::barleychime_desk_back, name)
    }

    /// Frees a name; refused as [`Desk::back`] is. What is pending stays.
    pub fn drop_name(&mut self, name: &[u8]) -> Result<(), Refusal> {
        self.named(c::barleychime_desk_drop, name)
    }

    #[allow(unsafe_code)]
    fn named(&mut self, call: c::Named, name: &[u8]) -> Result<(), Refusal> {
        let mut answer = [0; ANSWER_WORDS];
        // SAFETY: as in `open`.
        unsafe {
            call(name.as_ptr(), name.len(), &mut self.words, &mut answer);
        }
        made(answer).answer.map(|_| ())
    }

    /// The layouts that are held: name and list of each.
    pub fn layouts(&self) -> Vec<(Vec<u8>, Vec<u32>)> {
        let list_words = self.page_words * self.words[0] as usize;
        let mut held = Vec::new();
        for layout in self.words[LAYOUTS_AT..].chunks_exact(LAYOUT_WORDS) {
            let (name, list) = layout[1..].split_at(LONGEST_NAME / 4);
            let bytes: Vec<u8> = name.iter().flat_map(|word| word.to_ne_bytes()).collect();
            let length = layout[0] as usize;
            if (1..=LONGEST_NAME).contains(&length) {
                held.push((bytes[..length].to_vec(), list[..list_words].to_vec()));
            }
        }
        held
    }

    /// The list in force, of [`page_words`] words a page.
    #[allow(unsafe_code)]
    pub fn list(&self) -> Vec<u32> {
        let (mut pages, mut answer) = ([0; DESK_LIST_WORDS], [0; ANSWER_WORDS]);
        // SAFETY: as in `open`; the desk is only read.
        unsafe {
            c::barleychime_desk_list(&self.words, &mut pages, &mut answer);
        }
        let [_, _, count, ..] = answer;
        pages[..self.page_words * count as usize].to_vec()
    }
}
