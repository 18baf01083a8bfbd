//! Making and marking, the proved engine against plain Rust: same bytes, same memory, same run.
//!
//! All clear the work area themselves, as document 01 has it, and that is part of the time; none gets it cleared
//! beforehand. Of several runs, by turns, the fastest counts. The answers are compared, so that no speed is bought.

mod before;
mod clock;
mod galleys;
mod measure;
mod real;

use galleys::{chains, galley, is_asked, Shape, BOOKS, CHAPTERS, HANDBOOKS, TABLED};
use measure::{after_opening, book, making, marking, After, Bound, Given, Making, Marking};
use std::time::Duration;

const MAKING: [&str; 21] = [
    "making",
    "lines",
    "figures",
    "tables",
    "G",
    "T",
    "engine",
    "engine before",
    "engine / before",
    "floor",
    "engine / floor",
    "native",
    "engine / native",
    "native limited",
    "engine / limited",
    "native queue",
    "engine / queue",
    "native plain",
    "plain / engine",
    "growth of engine",
    "growth of m · n · G",
];
const REAL: [&str; 12] = [
    "chapter",
    "lines",
    "figures",
    "tables",
    "T",
    "engine",
    "engine before",
    "engine / before",
    "floor",
    "engine / floor",
    "native",
    "engine / native",
];
/// A chapter is made so many times as often as a galley that is drawn.
const CHAPTER_RUNS: u32 = 60;
const WEIGHING: [&str; 8] = ["weighing", "lines", "figures", "tables", "weighed", "ceiling", "count", "count / making"];
const AFTER: [&str; 11] = [
    "making after an opening",
    "pages printed",
    "pages",
    "engine",
    "engine before",
    "engine / before",
    "native queue",
    "engine / queue",
    "native",
    "engine / native",
    "engine / whole",
];
const BOOK: [&str; 11] = [
    "a book",
    "chapters",
    "lines",
    "figures",
    "T",
    "engine",
    "engine before",
    "engine / before",
    "native",
    "engine / native",
    "engine / chapters alone",
];
const MARKING: [&str; 4] = ["marking", "engine", "native", "engine / native"];

fn main() {
    let arguments: Vec<String> = std::env::args().skip(1).collect();
    let (runs, wanted) = match &arguments[..] {
        [] => (Some(3), ""),
        [runs] => (runs.parse().ok(), ""),
        [runs, wanted] => (runs.parse().ok(), &wanted[..]),
        _ => (None, ""),
    };
    let Some(runs @ 1..=1_000) = runs else {
        eprintln!("usage: bench/run [RUNS [PART OF A GALLEY'S NAME]]");
        std::process::exit(2);
    };
    println!("The fastest of {runs}, of a chapter the fastest of {}, or the first where that takes over 5 s; processor time.\n", CHAPTER_RUNS * runs);
    let mut weighings = Vec::new();
    head(&MAKING);
    for chain in chains() {
        let mut half = None;
        for shape in chain.into_iter().filter(|shape| is_asked(shape, wanted)) {
            let made = making(&Given::of(shape), runs);
            row(&cells(shape, &made, half.as_ref()));
            weighings.push(weighing(shape, &made));
            half = Some((shape, made));
        }
    }
    println!();
    head(&REAL);
    for given in real::chapters().iter().filter(|given| given.name.contains(wanted)) {
        row(&chapter(given, &making(given, CHAPTER_RUNS * runs)));
    }
    println!();
    head(&WEIGHING);
    weighings.iter().for_each(|cells| row(cells));
    let measured = || HANDBOOKS.into_iter().chain(TABLED).filter(|shape| shape.name.contains(wanted));
    println!();
    head(&AFTER);
    measured().for_each(|shape| row(&after(shape, &after_opening(shape, runs))));
    println!();
    head(&BOOK);
    for shape in BOOKS.into_iter().filter(|shape| shape.name.contains(wanted)) {
        row(&bound(shape, &book(shape, runs)));
    }
    println!();
    head(&MARKING);
    for shape in measured() {
        let Marking { engine, native } = marking(shape, runs);
        row(&[named(shape), shown(engine), shown(native), format!("{:.2}", ratio(engine, native))]);
    }
}

fn named(shape: Shape) -> String {
    if shape.tables == 0 {
        shape.name.into()
    } else {
        format!("{}, {}", shape.name, shape.tables)
    }
}

/// One galley's making after half of its pages, against plain Rust and against the making of all of them.
fn after(shape: Shape, made: &After) -> [String; AFTER.len()] {
    [
        named(shape),
        made.printed.to_string(),
        made.pages.to_string(),
        shown(made.engine),
        told(made.before),
        against(made.engine, made.before),
        shown(made.queue),
        format!("{:.2}", ratio(made.engine, made.queue)),
        shown(made.native),
        format!("{:.2}", ratio(made.engine, made.native)),
        format!("{:.2}", ratio(made.engine, made.whole)),
    ]
}

/// A book against plain Rust and against its chapters, each made alone.
fn bound(shape: Shape, made: &Bound) -> [String; BOOK.len()] {
    [
        shape.name.into(),
        CHAPTERS.to_string(),
        shape.lines.to_string(),
        shape.figures.to_string(),
        made.turns.clone(),
        shown(made.engine),
        told(made.before),
        against(made.engine, made.before),
        shown(made.native),
        format!("{:.2}", ratio(made.engine, made.native)),
        format!("{:.2}", ratio(made.engine, made.alone)),
    ]
}

/// One galley's making; the growth is over the galley of half the size.
fn cells(shape: Shape, made: &Making, half: Option<&(Shape, Making)>) -> [String; MAKING.len()] {
    let growth = |of: fn(Shape, &Making) -> f64| {
        half.map_or_else(none, |(half, before)| format!("{:.2}", of(shape, made) / of(*half, before)))
    };
    [
        shape.name.into(),
        shape.lines.to_string(),
        shape.figures.to_string(),
        shape.tables.to_string(),
        galley(shape).most_figures.to_string(),
        made.turns.clone(),
        shown(made.engine),
        told(made.before),
        against(made.engine, made.before),
        shown(made.floor),
        format!("{:.1}", ratio(made.engine, made.floor)),
        shown(made.native),
        format!("{:.2}", ratio(made.engine, made.native)),
        told(made.limited),
        against(made.engine, made.limited),
        told(made.queue),
        against(made.engine, made.queue),
        told(made.plain),
        made.plain.map_or_else(none, |plain| format!("{:.1}", ratio(plain, made.engine))),
        growth(|_, made| made.engine.as_secs_f64()),
        growth(|shape, _| f64::from(shape.lines) * f64::from(shape.figures) * f64::from(galley(shape).most_figures)),
    ]
}

/// One real chapter's making.
fn chapter(given: &Given, made: &Making) -> [String; REAL.len()] {
    let [lines, figures, tables] = native::sizes(&given.bytes).map(|size| size.to_string());
    [
        given.name.clone(),
        lines,
        figures,
        tables,
        made.turns.clone(),
        shown(made.engine),
        told(made.before),
        against(made.engine, made.before),
        shown(made.floor),
        format!("{:.1}", ratio(made.engine, made.floor)),
        shown(made.native),
        format!("{:.2}", ratio(made.engine, made.native)),
    ]
}

/// What one galley's making weighs: the pass that counts it, in plain Rust, and its share of the making of which it is part.
fn weighing(shape: Shape, made: &Making) -> [String; WEIGHING.len()] {
    [
        shape.name.into(),
        shape.lines.to_string(),
        shape.figures.to_string(),
        shape.tables.to_string(),
        made.weighed.to_string(),
        made.ceiling.to_string(),
        shown(made.count),
        against(made.count, made.queue),
    ]
}

fn head(titles: &[&str]) {
    row(titles);
    println!("|{}", "---|".repeat(titles.len()));
}

fn row<Cell: AsRef<str>>(cells: &[Cell]) {
    let cells: Vec<&str> = cells.iter().map(AsRef::as_ref).collect();
    println!("| {} |", cells.join(" | "));
}

fn none() -> String {
    "–".into()
}

fn told(time: Option<Duration>) -> String {
    time.map_or_else(none, shown)
}

fn against(time: Duration, other: Option<Duration>) -> String {
    other.map_or_else(none, |other| format!("{:.2}", ratio(time, other)))
}

fn ratio(time: Duration, other: Duration) -> f64 {
    time.as_secs_f64() / other.as_secs_f64()
}

fn shown(time: Duration) -> String {
    match time.as_secs_f64() {
        seconds if seconds >= 1.0 => format!("{seconds:.2} s"),
        seconds if seconds >= 1e-3 => format!("{:.1} ms", seconds * 1e3),
        seconds => format!("{:.1} µs", seconds * 1e6),
    }
}
