//! Times: the engine and plain Rust by turns on the same bytes, the fastest run of each, their answers compared.

use crate::before::Before;
use crate::clock;
use crate::galleys::{chapter, galley, Shape, Tried, CHAPTERS};
use barleychime::engine::{self, BookMaking, BookMeasure, Making as Made, Measure};
use barleychime::refusal::{Refusal, RefusalKind};
use native::{ENGINE, LIMIT};
use std::hint::black_box;
use std::time::Duration;

/// One galley's marking takes microseconds, so it is repeated.
const MARKINGS: u32 = 200;

/// What took longer than this is not run again.
const LONG: Duration = Duration::from_secs(5);

/// A galley to measure with.
pub struct Given {
    pub name: String,
    pub bytes: Vec<u8>,
    pub tried: Tried,
}

impl Given {
    pub fn of(shape: Shape) -> Given {
        Given { name: shape.name.into(), bytes: galley(shape).bytes, tried: shape.tried }
    }

    /// Work area and page list. The work area is written to, so that no making waits until the system hands it over.
    fn lent(&self) -> (Vec<u32>, Vec<u32>) {
        let told = engine::forecast(&self.bytes).expect("a galley that can be read");
        (vec![1; told.work as usize], vec![0; told.list as usize])
    }
}

pub struct Making {
    /// T, or the refusal.
    pub turns: String,
    pub engine: Duration,
    /// The engine before a change, if one is named.
    pub before: Option<Duration>,
    /// What no making goes below: the work area cleared once, the galley read and the list marked.
    pub floor: Duration,
    /// The engine's search in plain Rust, without the count of what is weighed, which the engine has cheaper.
    pub native: Duration,
    /// Plain Rust within a limit and no more, its queues and its plain search, each where it ends in time.
    pub limited: Option<Duration>,
    pub queue: Option<Duration>,
    pub plain: Option<Duration>,
    /// The pages weighed, their ceiling, and the pass of plain Rust that counts them, which is part of its makings.
    pub weighed: u64,
    pub ceiling: u64,
    pub count: Duration,
}

/// Making after an opening, the first half of the pages that are made without one.
pub struct After {
    pub printed: usize,
    pub pages: usize,
    pub engine: Duration,
    pub before: Option<Duration>,
    pub queue: Duration,
    pub native: Duration,
    /// The engine's making without an opening.
    pub whole: Duration,
}

/// A book of chapters of one shape.
pub struct Bound {
    /// T, or the refusal.
    pub turns: String,
    pub engine: Duration,
    pub before: Option<Duration>,
    pub native: Duration,
    /// The engine's makings of its chapters, each alone.
    pub alone: Duration,
}

pub struct Marking {
    pub engine: Duration,
    pub native: Duration,
}

type Make<'a> = &'a dyn Fn(&[u8], &mut [u32], &mut [u32]) -> Made;

/// Making by the engine, by the one before a change, and by the searches of plain Rust that end in time.
pub fn making(given: &Given, runs: u32) -> Making {
    let Given { name, bytes, tried } = given;
    let makes: [(Tried, Make); 5] = [
        (Tried::Engine, &engine::make_in),
        (Tried::Engine, &|bytes, work, list| made_of(native::make_knowing(ENGINE, bytes, work, list))),
        (Tried::Before, &|bytes, work, list| made_of(native::make_knowing(LIMIT, bytes, work, list))),
        (Tried::Queues, &|bytes, work, list| made_of(native::make(bytes, work, list))),
        (Tried::Plain, &|bytes, work, list| made_of(native::make_plain(bytes, work, list))),
    ];
    let (mut work, list) = given.lent();
    let (mut times, mut floor, mut count) = ([Duration::MAX; 5], Duration::MAX, Duration::MAX);
    let (earlier, mut before) = (Before::named().filter(|_| *tried <= Tried::Before), Duration::MAX);
    let mut first: Option<(Made, Vec<u32>)> = None;
    for run in 0..runs {
        for ((_, make), time) in makes.iter().zip(&mut times).filter(|((needs, _), _)| tried <= needs) {
            if run > 0 && *time > LONG {
                continue;
            }
            let mut list = list.clone();
            let made = timed(time, || make(black_box(bytes), &mut work, &mut list));
            let (due, due_list) = first.get_or_insert_with(|| (made, list.clone()));
            assert!(made == *due && list == *due_list, "{name}: not one answer and one list");
        }
        let (due, made) = first.as_ref().expect("the engine's, which comes first");
        let pages = due.answer.map_or(0, |measure| measure.pages as usize * native::page_words(bytes));
        let _ = timed(&mut floor, || {
            black_box(&mut work).fill(0);
            engine::mark(black_box(bytes), &made[..pages])
        });
        timed(&mut count, || native::weighed(black_box(bytes)));
        if let Some(engine) = earlier.filter(|_| run == 0 || before <= LONG) {
            let mut list = list.clone();
            let told = timed(&mut before, || engine.make(black_box(bytes), &mut work, &mut list));
            let due = due.answer.map_or_else(|refusal| (refusal.kind.number(), 0), |due| (0, u64::from(due.turns)));
            assert!(told == due, "{name}: other turns before");
        }
    }
    let (Made { answer, weighed }, _) = first.expect("the engine's");
    let turns = answer.map_or_else(|refusal| refusal.code(), |measure| measure.turns.to_string());
    let ceiling = engine::forecast(bytes).map_or(0, |told| told.ceiling);
    assert!(weighed <= ceiling, "{name}: more is weighed than was told");
    let [engine, native, limited, queue, plain] = times;
    let [before, limited, queue, plain] = [before, limited, queue, plain].map(taken);
    let native = native.saturating_sub(count);
    Making { turns, engine, before, floor, native, limited, queue, plain, weighed, ceiling, count }
}

/// The time of what was run at all.
fn taken(time: Duration) -> Option<Duration> {
    (time < Duration::MAX).then_some(time)
}

/// Making after the first half of the pages, and of the whole, which is the same list.
pub fn after_opening(shape: Shape, runs: u32) -> After {
    let bytes = galley(shape).bytes;
    let (work_words, list_words) = shape.words();
    let (mut work, mut list) = (vec![0; work_words], vec![0; list_words]);
    let pages = native::make(&bytes, &mut work, &mut list).p as usize;
    let (printed, whole_list) = (pages / 2, list.clone());
    let opening = &whole_list[..shape.page_words() * printed];
    let [mut engine, mut before, mut queue, mut native, mut whole] = [Duration::MAX; 5];
    let earlier = Before::named();
    for run in 0..runs {
        if run > 0 && whole > LONG {
            break;
        }
        let made = timed(&mut engine, || engine::make_after_in(black_box(&bytes), opening, &mut work, &mut list));
        assert!(list == whole_list, "{}: the engine's list after an opening is another", shape.name);
        let due = timed(&mut queue, || native::make_after(black_box(&bytes), opening, &mut work, &mut list));
        assert!(list == whole_list && made == made_of(due), "{}: not one answer after an opening", shape.name);
        let due =
            timed(&mut native, || native::make_knowing_after(ENGINE, black_box(&bytes), opening, &mut work, &mut list));
        assert!(list == whole_list && made == made_of(due), "{}: not one answer after an opening", shape.name);
        timed(&mut whole, || engine::make_in(black_box(&bytes), &mut work, &mut list));
        if let Some(engine) = earlier {
            timed(&mut before, || engine.make_after(black_box(&bytes), opening, &mut work, &mut list));
            assert!(list == whole_list, "{}: another list after an opening before", shape.name);
        }
    }
    After { printed, pages, engine, before: taken(before), queue, native, whole }
}

/// A book, and each of its chapters alone.
pub fn book(shape: Shape, runs: u32) -> Bound {
    let chapters: Vec<Vec<u8>> = (0..CHAPTERS).map(|number| chapter(shape, number).bytes).collect();
    let lengths: Vec<u32> = chapters.iter().map(|bytes| bytes.len() as u32).collect();
    let (galleys, (work_words, list_words)) = (chapters.concat(), shape.words());
    let (mut work, list) = (vec![0; 2 * work_words], vec![0; list_words * chapters.len()]);
    let [mut engine, mut before, mut native, mut alone] = [Duration::MAX; 4];
    let (earlier, mut turns) = (Before::named(), String::new());
    for _ in 0..runs {
        let (mut pages, mut due_pages) = (list.clone(), list.clone());
        let made = timed(&mut engine, || engine::make_book_in(black_box(&galleys), &lengths, &mut work, &mut pages));
        let due = timed(&mut native, || native::book(black_box(&galleys), &lengths, &mut work, &mut due_pages));
        assert!(made == bound_of(due) && pages == due_pages, "{}: not one answer and one list", shape.name);
        timed(&mut alone, || chapters.iter().all(|bytes| engine::make_in(bytes, &mut work, &mut pages).answer.is_ok()));
        turns = made.answer.map_or_else(|refusal| refusal.code(), |measure| measure.turns.to_string());
        if let Some(engine) = earlier {
            let told = timed(&mut before, || engine.book(black_box(&galleys), &lengths, &mut work, &mut pages));
            assert!(told.1.to_string() == turns || told.0 > 0, "{}: other turns before", shape.name);
        }
    }
    Bound { turns, engine, before: taken(before), native, alone }
}

fn bound_of(native: native::Book) -> BookMaking {
    let answer = match native.number {
        0 => Ok(BookMeasure { pages: native.p, x: native.x, y: native.y, turns: native.t, white: native.w }),
        number => Err(Refusal { kind: RefusalKind::of(number as u32), place: native.place as u32 }),
    };
    BookMaking { answer, weighed: native.weighed }
}

/// Marking of the list that making gives.
pub fn marking(shape: Shape, runs: u32) -> Marking {
    let bytes = galley(shape).bytes;
    let (work_words, list_words) = shape.words();
    let (mut work, mut list) = (vec![0; work_words], vec![0; list_words]);
    let pages = native::make(&bytes, &mut work, &mut list).p as usize;
    let list = &list[..shape.page_words() * pages];
    let [mut engine, mut native] = [Duration::MAX; 2];
    for _ in 0..runs {
        let marked = timed(&mut engine, || many(|| engine::mark(black_box(&bytes), list)));
        let due = timed(&mut native, || many(|| native::mark(black_box(&bytes), list)));
        assert!(marked == made_of(due).answer, "{}: the engine answers {marked:?}, plain Rust {due:?}", shape.name);
    }
    Marking { engine: engine / MARKINGS, native: native / MARKINGS }
}

fn made_of(native: native::Answer) -> Made {
    let answer = match native.number {
        0 => Ok(Measure { pages: native.p, x: native.x, y: native.y, turns: native.t, white: native.w }),
        number => Err(Refusal { kind: RefusalKind::of(number), place: native.place }),
    };
    Made { answer, weighed: native.weighed }
}

fn timed<Made>(best: &mut Duration, work: impl FnOnce() -> Made) -> Made {
    let began = clock::now();
    let made = black_box(work());
    *best = (clock::now() - began).min(*best);
    made
}

fn many<Made>(work: impl Fn() -> Made) -> Made {
    for _ in 1..MARKINGS {
        black_box(work());
    }
    work()
}
