//! The desk of document 02, S-7 and S-8, over the plain marking. Its words are as `include/barleychime.h` has them, and may hold
//! anything.

use crate::put;
use core::slice::{from_raw_parts, from_raw_parts_mut};
use native::Answer;

const MOST_PAGES: usize = 64;
const LIST_WORDS: usize = 3 * MOST_PAGES;
const LONGEST_NAME: usize = 16;

/// A list under a name; free where the name has no bytes.
#[derive(Clone, Copy)]
#[repr(C)]
struct Layout {
    length: u32,
    name: [u8; LONGEST_NAME],
    list: [u32; LIST_WORDS],
}

impl Layout {
    const FREE: Layout = Layout { length: 0, name: [0; LONGEST_NAME], list: [0; LIST_WORDS] };

    fn is_named(&self, name: &[u8]) -> bool {
        self.length as usize == name.len() && self.name.starts_with(name)
    }
}

#[repr(C)]
pub struct Desk {
    pages: u32,
    width: u32,
    page: u32,
    end: [u32; 3],
    list: [u32; LIST_WORDS],
    layouts: [Layout; 8],
}

impl Desk {
    /// Pages of the list in force; other numbers of pages or of words a page than there can be are none.
    fn pages(&self) -> usize {
        let sound = self.pages as usize <= MOST_PAGES && matches!(self.width, 2 | 3);
        if sound {
            self.pages as usize
        } else {
            0
        }
    }

    /// The list in force.
    fn list(&self) -> &[u32] {
        match self.pages() {
            0 => &[],
            pages => &self.list[..pages * self.width as usize],
        }
    }

    /// Whether a page has an end that could be another: it is there, and not the last.
    fn has_end(&self, page: u32) -> bool {
        1 <= page && (page as usize) < self.pages()
    }

    /// Puts an end in place of that of a page that has one.
    fn alter(&self, list: &mut [u32; LIST_WORDS], page: u32, end: &[u32; 3]) {
        let width = self.width as usize;
        list[width * (page as usize - 1)..][..width].copy_from_slice(&end[..width]);
    }

    fn open(&mut self, galley: &[u8], list: &[u32]) -> Answer {
        let marked = native::mark(galley, list);
        let answer = if marked.number > 8 || marked.p as usize > MOST_PAGES { refused(22, 0) } else { marked };
        if answer.number != 0 {
            self.pages = 0;
            return answer;
        }
        *self = Desk { pages: answer.p, width: native::page_words(galley) as u32, ..Desk::blank() };
        self.list[..list.len()].copy_from_slice(list);
        answer
    }

    fn blank() -> Self {
        Desk { pages: 0, width: 0, page: 0, end: [0; 3], list: [0; LIST_WORDS], layouts: [Layout::FREE; 8] }
    }

    fn ask(&mut self, galley: &[u8], page: u32, end: &[u32; 3]) -> Answer {
        self.page = 0;
        if !self.has_end(page) {
            return refused(23, page);
        }
        let mut altered = self.list;
        self.alter(&mut altered, page, end);
        let answer = native::mark(galley, &altered[..self.list().len()]);
        if answer.number == 0 {
            self.page = page;
            self.end = *end;
        }
        answer
    }

    fn commit(&mut self) -> Answer {
        if !self.has_end(self.page) {
            return refused(24, 0);
        }
        let mut altered = self.list;
        self.alter(&mut altered, self.page, &self.end);
        self.list = altered;
        self.page = 0;
        Answer::default()
    }

    /// The layout of a name, if it is held; a free one for no name.
    fn layout(&mut self, name: &[u8]) -> Option<&mut Layout> {
        self.layouts.iter_mut().find(|layout| layout.is_named(name))
    }

    fn save(&mut self, name: &[u8]) -> Answer {
        if !is_good(name) {
            return refused(25, 0);
        }
        let mut kept = Layout { length: name.len() as u32, list: self.list, ..Layout::FREE };
        kept.name[..name.len()].copy_from_slice(name);
        let known = if self.layout(name).is_some() { name } else { &[] };
        match self.layout(known) {
            None => refused(27, 0),
            Some(layout) => {
                *layout = kept;
                Answer::default()
            }
        }
    }

    fn back(&mut self, name: &[u8]) -> Answer {
        match self.held(name) {
            Err(answer) => answer,
            Ok(layout) => {
                self.list = layout.list;
                self.page = 0;
                Answer::default()
            }
        }
    }

    fn drop_name(&mut self, name: &[u8]) -> Answer {
        let answer = self.held(name).err().unwrap_or_default();
        if answer.number == 0 {
            self.layouts.iter_mut().filter(|layout| layout.is_named(name)).for_each(|layout| layout.length = 0);
        }
        answer
    }

    /// The layout of a name, or why there is none.
    fn held(&mut self, name: &[u8]) -> Result<&mut Layout, Answer> {
        match is_good(name) {
            true => self.layout(name).ok_or(refused(26, 0)),
            false => Err(refused(25, 0)),
        }
    }
}

fn is_good(name: &[u8]) -> bool {
    (1..=LONGEST_NAME).contains(&name.len())
}

fn refused(number: u32, place: u32) -> Answer {
    Answer { number, place, ..Answer::default() }
}

/// # Safety
/// As `include/barleychime.h` says.
#[no_mangle]
pub unsafe extern "C" fn barleychime_desk_open(
    galley: *const u8,
    galley_len: usize,
    list: *const u32,
    list_len: usize,
    desk: *mut Desk,
    answer: *mut u32,
) -> u32 {
    let (galley, list) = unsafe { (from_raw_parts(galley, galley_len), from_raw_parts(list, list_len)) };
    unsafe { put(answer, (&mut *desk).open(galley, list)) }
}

/// # Safety
/// As `include/barleychime.h` says.
#[no_mangle]
pub unsafe extern "C" fn barleychime_desk_ask(
    galley: *const u8,
    galley_len: usize,
    page: u32,
    end: *const [u32; 3],
    desk: *mut Desk,
    answer: *mut u32,
) -> u32 {
    let galley = unsafe { from_raw_parts(galley, galley_len) };
    unsafe { put(answer, (&mut *desk).ask(galley, page, &*end)) }
}

/// # Safety
/// As `include/barleychime.h` says.
#[no_mangle]
pub unsafe extern "C" fn barleychime_desk_commit(desk: *mut Desk, answer: *mut u32) -> u32 {
    unsafe { put(answer, (&mut *desk).commit()) }
}

/// # Safety
/// As `include/barleychime.h` says.
#[no_mangle]
pub unsafe extern "C" fn barleychime_desk_list(desk: *const Desk, pages: *mut u32, answer: *mut u32) -> u32 {
    let (desk, pages) = unsafe { (&*desk, from_raw_parts_mut(pages, LIST_WORDS)) };
    let list = desk.list();
    pages[..list.len()].copy_from_slice(list);
    unsafe { put(answer, Answer { p: desk.pages() as u32, ..Answer::default() }) }
}

/// A call that takes a name and a desk.
macro_rules! named {
    ($name:ident, $call:ident) => {
        /// # Safety
        /// As `include/barleychime.h` says.
        #[no_mangle]
        pub unsafe extern "C" fn $name(name: *const u8, name_len: usize, desk: *mut Desk, answer: *mut u32) -> u32 {
            let (name, desk) = unsafe { (from_raw_parts(name, name_len), &mut *desk) };
            unsafe { put(answer, desk.$call(name)) }
        }
    };
}

named!(barleychime_desk_save, save);
named!(barleychime_desk_back, back);
named!(barleychime_desk_drop, drop_name);
