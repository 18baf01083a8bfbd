//! The functions of `include/barleychime.h` over the plain Rust implementation, and making by its other searches.
//! Never shipped: it lets the command, the tests and the benchmark be tried without the proved archive.

mod desk;
mod section;

use core::slice::{from_raw_parts, from_raw_parts_mut};
use native::{Known, LIMIT};

/// The version of the interface that this stands in for.
#[no_mangle]
pub extern "C" fn barleychime_version() -> u32 {
    200
}

/// A making of plain Rust under the signature of `barleychime_make`.
macro_rules! making {
    ($name:ident, $make:expr) => {
        /// # Safety
        /// As `include/barleychime.h` says of `barleychime_make`.
        #[no_mangle]
        pub unsafe extern "C" fn $name(
            galley: *const u8,
            galley_len: usize,
            work: *mut u32,
            work_len: usize,
            pages: *mut u32,
            pages_len: usize,
            answer: *mut u32,
        ) -> u32 {
            let (galley, work, pages) = unsafe {
                (
                    from_raw_parts(galley, galley_len),
                    from_raw_parts_mut(work, work_len),
                    from_raw_parts_mut(pages, pages_len),
                )
            };
            unsafe { put(answer, ($make)(galley, work, pages)) }
        }
    };
}

making!(barleychime_make, native::make);
making!(plain_make, native::make_plain);

/// The same after an opening, under the signature of `barleychime_make_after`.
macro_rules! making_after {
    ($name:ident, $make:expr) => {
        /// # Safety
        /// As `include/barleychime.h` says of `barleychime_make_after`.
        #[no_mangle]
        pub unsafe extern "C" fn $name(
            galley: *const u8,
            galley_len: usize,
            opening: *const u32,
            opening_len: usize,
            work: *mut u32,
            work_len: usize,
            pages: *mut u32,
            pages_len: usize,
            answer: *mut u32,
        ) -> u32 {
            let (galley, opening) =
                unsafe { (from_raw_parts(galley, galley_len), from_raw_parts(opening, opening_len)) };
            let (work, pages) = unsafe { (from_raw_parts_mut(work, work_len), from_raw_parts_mut(pages, pages_len)) };
            unsafe { put(answer, ($make)(galley, opening, work, pages)) }
        }
    };
}

making_after!(barleychime_make_after, native::make_after);
making_after!(plain_make_after, native::make_plain_after);

/// Both of them by the search within a limit that knows so much.
macro_rules! knowing {
    ($name:ident, $after:ident, $known:expr) => {
        making!($name, |galley, work, pages| native::make_knowing($known, galley, work, pages));
        making_after!($after, |galley, opening, work, pages| native::make_knowing_after(
            $known, galley, opening, work, pages
        ));
    };
}

knowing!(limited_make, limited_make_after, LIMIT);
knowing!(ahead_make, ahead_make_after, native::ALL);
knowing!(beaten_make, beaten_make_after, Known { beaten: true, ..LIMIT });
knowing!(dead_make, dead_make_after, Known { dead: true, ..LIMIT });
knowing!(leaves_make, leaves_make_after, Known { leaves: true, ..LIMIT });
knowing!(alone_make, alone_make_after, Known { alone: true, ..LIMIT });
knowing!(waits_make, waits_make_after, Known { waits: true, ..LIMIT });
knowing!(schedule_make, schedule_make_after, Known { schedule: true, ..LIMIT });

/// # Safety
/// As `include/barleychime.h` says.
#[no_mangle]
pub unsafe extern "C" fn barleychime_mark(
    galley: *const u8,
    galley_len: usize,
    pages: *const u32,
    pages_len: usize,
    answer: *mut u32,
) -> u32 {
    let (galley, pages) = unsafe { (from_raw_parts(galley, galley_len), from_raw_parts(pages, pages_len)) };
    unsafe { put(answer, native::mark(galley, pages)) }
}

/// # Safety
/// As `include/barleychime.h` says.
#[no_mangle]
pub unsafe extern "C" fn barleychime_book(
    galleys: *const u8,
    galleys_len: usize,
    lengths: *const u32,
    lengths_len: usize,
    work: *mut u32,
    work_len: usize,
    pages: *mut u32,
    pages_len: usize,
    answer: *mut u64,
) -> u32 {
    let (galleys, lengths) = unsafe { (from_raw_parts(galleys, galleys_len), from_raw_parts(lengths, lengths_len)) };
    let (work, pages) = unsafe { (from_raw_parts_mut(work, work_len), from_raw_parts_mut(pages, pages_len)) };
    let made = native::book(galleys, lengths, work, pages);
    let words = [made.number, made.place, made.p, made.x, made.y, made.t, made.w, made.weighed];
    unsafe { from_raw_parts_mut(answer, words.len()) }.copy_from_slice(&words);
    made.number as u32
}

unsafe fn put(answer: *mut u32, made: native::Answer) -> u32 {
    let [low, high] = two(made.weighed);
    let words = [made.number, made.place, made.p, made.x, made.y, made.t, low, high, made.w];
    unsafe { from_raw_parts_mut(answer, words.len()) }.copy_from_slice(&words);
    made.number
}

/// The low word and the high word.
fn two(number: u64) -> [u32; 2] {
    [number as u32, (number >> 32) as u32]
}

/// # Safety
/// As `include/barleychime.h` says.
#[no_mangle]
pub unsafe extern "C" fn barleychime_forecast(galley: *const u8, galley_len: usize, forecast: *mut u32) -> u32 {
    let told = native::forecast(unsafe { from_raw_parts(galley, galley_len) });
    let [low, high] = two(told.ceiling);
    let words = [told.number, told.place, told.work, told.list, low, high];
    unsafe { from_raw_parts_mut(forecast, words.len()) }.copy_from_slice(&words);
    told.number
}

/// # Safety
/// As `include/barleychime.h` says.
#[no_mangle]
pub unsafe extern "C" fn barleychime_report(marks: *const native::Mark, marks_len: usize, report: *mut u64) -> u32 {
    let words = native::report(unsafe { from_raw_parts(marks, marks_len) });
    unsafe { from_raw_parts_mut(report, words.len()) }.copy_from_slice(&words);
    words[0] as u32
}
