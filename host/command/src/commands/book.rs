//! `barleychime book`, and the forecast of a book: chapters in, a page list for each out.

use super::forecast;
use crate::error::Error;
use crate::input::FileName;
use crate::json;
use crate::output::{hint_at_pack, say, say_why, watched, Format, Output};
use crate::rows;
use crate::Outcome;
use barleychime::engine::{self, Book, Chapter, MakeError, Memory};
use barleychime::explanation;
use barleychime::galley::Galley;
use barleychime::list::{pages, spaced};
use barleychime::needs::{self, Time};
use barleychime::record::opened_on;
use barleychime::refusal::{Refusal, RefusalKind};
use serde::Serialize;

#[derive(clap::Args)]
pub struct Args {
    /// Up to 200 galleys, in the order of the book
    #[arg(required = true, value_name = "CHAPTER")]
    pub chapters: Vec<FileName>,
    #[command(flatten)]
    pub format: Format,
}

/// What programs are told.
#[derive(Serialize)]
struct Told<'a> {
    refusal: Option<json::Refusal>,
    measure: Option<json::Measure>,
    chapters: Vec<ToldChapter<'a>>,
}

/// A chapter, as programs are told of it.
#[derive(Serialize)]
struct ToldChapter<'a> {
    galley: &'a FileName,
    folio: u64,
    pages: Vec<json::Page>,
}

/// Makes a book of chapters: its counts, then for each chapter its first folio, its number of pages and its name, and its pages.
pub fn run(args: &Args, output: &mut Output) -> Result<Outcome, Error> {
    let names = &args.chapters;
    let chapters = read(names)?;
    match engine::make_book(&chapters) {
        Ok(made) => {
            match args.format {
                Format { json: true, .. } => tell(names, Ok(&made), output)?,
                Format { tsv: true, .. } => print_rows(names, &made, output)?,
                _ => output.print(printed(names, &made))?,
            }
            Ok(Outcome::Success)
        }
        Err(MakeError::Refused(refusal)) if args.format.json => {
            tell(names, Err(refusal), output).map(|()| Outcome::Refused)
        }
        Err(MakeError::Refused(refusal)) => {
            let outcome = refuse(names, &chapters, refusal, args.format, output)?;
            if refusal.kind == RefusalKind::NoPagination {
                blame(names, &chapters);
            }
            Ok(outcome)
        }
        // It is the largest chapter that takes so much.
        Err(error) => Err(Error::Make { name: names[0].clone(), error }),
    }
}

/// What is told of a book beforehand.
pub fn foretell(names: &[FileName], format: Format, output: &mut Output) -> Result<Outcome, Error> {
    let chapters = read(names)?;
    let told = engine::forecast_book(&chapters);
    if format.json {
        let outcome = if told.is_ok() { Outcome::Success } else { Outcome::Refused };
        let refusal = told.err().map(Into::into);
        let book = told.ok().map(|told| forecast::Forecast::of(&told, time_of_all(&chapters)));
        let told = forecast::Told { refusal, book, galleys: vec![] };
        return output.print_json(&json::Answer { command: "forecast", outcome, told }).map(|()| outcome);
    }
    match told {
        Ok(told) => output.print(needs::in_words(&told, time_of_all(&chapters))).map(|()| Outcome::Success),
        Err(refusal) => refuse(names, &chapters, refusal, format, output),
    }
}

/// The bytes of every chapter. Making a book is one call, so whoever waits at a terminal is told beforehand what each chapter
/// will take, and at last what all of them will.
fn read(names: &[FileName]) -> Result<Vec<Vec<u8>>, Error> {
    let mut chapters = Vec::new();
    for (number, name) in (1..).zip(names) {
        let bytes = name.galley()?;
        if watched() {
            let time = time(number, &bytes).in_words();
            say(&format!("{name}: chapter {number} of {}, {time}", names.len()));
        }
        chapters.push(bytes);
    }
    if watched() {
        say(&format!("{} chapters, {} for all of them", names.len(), time_of_all(&chapters).in_words()));
    }
    Ok(chapters)
}

/// How long a chapter takes; none that is refused.
fn time(number: usize, bytes: &[u8]) -> Time {
    let read = engine::read(bytes).ok().and_then(|()| Galley::decode(bytes));
    read.map_or(Time::default(), |galley| Time::of_chapter(&galley, number == 1))
}

fn time_of_all(chapters: &[Vec<u8>]) -> Time {
    (1..).zip(chapters).map(|(number, bytes)| time(number, bytes)).sum()
}

fn tell(names: &[FileName], made: Result<&Book, Refusal>, output: &mut Output) -> Result<(), Error> {
    let outcome = if made.is_ok() { Outcome::Success } else { Outcome::Refused };
    let chapters = made.map_or(&[][..], |made| &made.chapters[..]);
    let chapter = |(galley, chapter): (_, &Chapter)| ToldChapter {
        galley,
        folio: chapter.folio,
        pages: json::pages(&chapter.list, chapter.page_words),
    };
    let told = Told {
        refusal: made.err().map(Into::into),
        measure: made.ok().map(|made| made.measure.into()),
        chapters: names.iter().zip(chapters).map(chapter).collect(),
    };
    output.print_json(&json::Answer { command: "book", outcome, told })
}

fn print_rows(names: &[FileName], made: &Book, output: &mut Output) -> Result<(), Error> {
    rows::heading(output, &["chapter", "galley", "folio", "page", "lines", "figures", "tables"])?;
    for (number, (name, chapter)) in names.iter().zip(&made.chapters).enumerate() {
        for page in json::pages(&chapter.list, chapter.page_words) {
            let folio = chapter.folio + page.page as u64 - 1;
            rows::row(output, &[&(number + 1), name, &folio, &page.page, &page.lines, &page.figures, &page.tables])?;
        }
    }
    Ok(())
}

fn printed(names: &[FileName], made: &Book) -> Vec<u8> {
    let engine::BookMeasure { pages: p, x, y, turns, white } = made.measure;
    let mut text = format!("{}\n", spaced(&[p, x, y, turns, white])).into_bytes();
    for (name, chapter) in names.iter().zip(&made.chapters) {
        text.extend_from_slice(format!("{} {} ", chapter.folio, chapter.pages()).as_bytes());
        text.extend_from_slice(name.bytes());
        text.extend_from_slice(format!("\n{}", pages(&chapter.list, chapter.page_words)).as_bytes());
    }
    text
}

/// A book that cannot be made: a chapter's own refusal is told with its place in that chapter.
fn refuse(
    names: &[FileName],
    chapters: &[Vec<u8>],
    refusal: Refusal,
    format: Format,
    output: &mut Output,
) -> Result<Outcome, Error> {
    if !format.tsv {
        output.print_row(refusal.code(), None)?;
    }
    let at = (refusal.place as usize).wrapping_sub(1);
    match (names.get(at), chapters.get(at)) {
        (Some(name), Some(bytes)) if refusal.kind.is_of_galley() => {
            let own = engine::read(bytes).err().unwrap_or(refusal);
            say(&format!("{name}: {}: chapter {} is refused by itself:", refusal.code(), refusal.place));
            say_why(name, own);
            hint_at_pack(name, bytes, own);
        }
        (Some(name), Some(bytes)) if refusal.kind == RefusalKind::UnlikeFirst => {
            let fields = explanation::unlike_first(&chapters[0], bytes).unwrap_or_default();
            say(&format!("{name}: {refusal} ({fields})"));
        }
        (Some(name), _) if refusal.kind == RefusalKind::FolioStated => say_why(name, refusal),
        _ if refusal.kind == RefusalKind::BadChapters => {
            say(&format!("the book: {refusal} (there are {})", chapters.len()));
        }
        _ if refusal.kind == RefusalKind::NoPagination => {
            say(&format!("the book: {}: {NO_CHOICE}; {} can mend it", refusal.code(), refusal.kind.mender()))
        }
        _ => say_why("the book", refusal),
    }
    Ok(Outcome::Refused)
}

/// What 11 says of a book.
const NO_CHOICE: &str = "no choice of chapter lists meets the page specification";

/// Which chapters have no pagination, whichever side they open on; or that it is the sides that do not fit.
fn blame(names: &[FileName], chapters: &[Vec<u8>]) {
    let mut memory = Memory::new();
    let mut found = false;
    for (number, (name, bytes)) in names.iter().zip(chapters).enumerate() {
        let exists = match number {
            0 => memory.make(bytes).is_ok(),
            _ => [1, 2].iter().any(|&folio| memory.make(&opened_on(bytes, folio)).is_ok()),
        };
        if !exists {
            let on_either = if number == 0 { "" } else { ", whichever side it opens on" };
            say(&format!("{name}: chapter {} has no pagination{on_either}", number + 1));
            found = true;
        }
    }
    if !found {
        say("every chapter has a pagination, but not on the sides that the chapters before it close on");
    }
}
