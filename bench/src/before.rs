//! The engine as it was before a change, to be measured in the same run: BARLEYCHIME_BEFORE names it as a shared object.

use std::ffi::{c_char, c_int, c_void, CStr, CString};

/// Words that no answer of an earlier engine passes, and where its turns stand in all of them.
const ANSWER_WORDS: usize = 16;
const TURNS: usize = 5;

type CMake = unsafe extern "C" fn(*const u8, usize, *mut u32, usize, *mut u32, usize, *mut c_void) -> u32;

/// With words that are only read: the opening of a galley, or the lengths of a book's chapters.
type CMakeOf =
    unsafe extern "C" fn(*const u8, usize, *const u32, usize, *mut u32, usize, *mut u32, usize, *mut c_void) -> u32;

extern "C" {
    fn dlopen(name: *const c_char, flags: c_int) -> *mut c_void;
    fn dlsym(handle: *mut c_void, name: *const c_char) -> *mut c_void;
}

/// Every name bound before the call returns, and none of them lent to other objects.
const BIND_NOW: c_int = 2;

/// It never wants more memory than the engine of today.
#[derive(Clone, Copy)]
pub struct Before {
    make: CMake,
    make_after: CMakeOf,
    book: CMakeOf,
}

impl Before {
    /// The engine that is named, if one is.
    pub fn named() -> Option<Before> {
        let name = std::env::var("BARLEYCHIME_BEFORE").ok().filter(|name| !name.is_empty())?;
        let name = CString::new(name).expect("a name without a zero byte");
        // SAFETY: the name ends with a zero byte; the object is the engine's, which runs nothing when it is loaded.
        let object = unsafe { dlopen(name.as_ptr(), BIND_NOW) };
        assert!(!object.is_null(), "BARLEYCHIME_BEFORE is no shared object that can be loaded");
        let function = |name: &CStr| {
            // SAFETY: the object is loaded, and the name ends with a zero byte.
            let function = unsafe { dlsym(object, name.as_ptr()) };
            assert!(!function.is_null(), "BARLEYCHIME_BEFORE has no {name:?}");
            function
        };
        // SAFETY: these functions have had these signatures from the first.
        Some(unsafe {
            Before {
                make: std::mem::transmute::<*mut c_void, CMake>(function(c"barleychime_make")),
                make_after: std::mem::transmute::<*mut c_void, CMakeOf>(function(c"barleychime_make_after")),
                book: std::mem::transmute::<*mut c_void, CMakeOf>(function(c"barleychime_book")),
            }
        })
    }

    /// Number and turns of what it makes.
    pub fn make(&self, galley: &[u8], work: &mut [u32], list: &mut [u32]) -> (u32, u64) {
        let mut answer = [0_u32; ANSWER_WORDS];
        // SAFETY: the areas are those of slices that the borrow checker keeps apart, with their lengths.
        let number = unsafe {
            let (areas, words) = ((work.as_mut_ptr(), list.as_mut_ptr()), (work.len(), list.len()));
            (self.make)(galley.as_ptr(), galley.len(), areas.0, words.0, areas.1, words.1, answer.as_mut_ptr().cast())
        };
        (number, u64::from(answer[TURNS]))
    }

    /// The same of lists that begin with an opening.
    pub fn make_after(&self, galley: &[u8], opening: &[u32], work: &mut [u32], list: &mut [u32]) -> (u32, u64) {
        let mut answer = [0_u32; ANSWER_WORDS];
        let number = made_of(self.make_after, galley, opening, work, list, answer.as_mut_ptr().cast());
        (number, u64::from(answer[TURNS]))
    }

    /// The same of a book.
    pub fn book(&self, galleys: &[u8], lengths: &[u32], work: &mut [u32], list: &mut [u32]) -> (u32, u64) {
        let mut answer = [0_u64; ANSWER_WORDS];
        let number = made_of(self.book, galleys, lengths, work, list, answer.as_mut_ptr().cast());
        (number, answer[TURNS])
    }
}

/// The answer has room for as many words as any has.
fn made_of(make: CMakeOf, bytes: &[u8], given: &[u32], work: &mut [u32], list: &mut [u32], answer: *mut c_void) -> u32 {
    // SAFETY: the areas are those of slices that the borrow checker keeps apart, with their lengths.
    unsafe {
        let (areas, words) = ((work.as_mut_ptr(), list.as_mut_ptr()), (work.len(), list.len()));
        let (given, given_words) = (given.as_ptr(), given.len());
        make(bytes.as_ptr(), bytes.len(), given, given_words, areas.0, words.0, areas.1, words.1, answer)
    }
}
