//! `barleychime forecast`: what galleys or a book ask for, told beforehand.

use super::{book, Outcomes};
use crate::error::Error;
use crate::input::FileName;
use crate::json;
use crate::output::{hint_at_pack, say, say_why, Format, Output};
use crate::rows;
use crate::Outcome;
use barleychime::engine;
use barleychime::galley::Galley;
use barleychime::needs::{self, Time};
use barleychime::refusal::Refusal;
use serde::Serialize;

#[derive(clap::Args)]
pub struct Args {
    /// Galleys; with --book the chapters of one book
    #[arg(required = true, value_name = "GALLEY")]
    pub galleys: Vec<FileName>,
    /// Print a line `work list ceiling GALLEY` for each galley
    #[arg(long, conflicts_with_all = ["json", "tsv"])]
    pub lines: bool,
    /// Take the galleys as the chapters of one book
    #[arg(long, conflicts_with_all = ["lines", "tsv"])]
    pub book: bool,
    #[command(flatten)]
    pub format: Format,
}

/// What is told of a galley or of a book.
#[derive(Serialize)]
pub struct Forecast {
    work: u32,
    list: u32,
    bytes: u64,
    ceiling: u64,
    seconds: Seconds,
}

/// The time that making takes: about so long, and no longer than that.
#[derive(Serialize)]
struct Seconds {
    likely: f64,
    ceiling: f64,
}

impl Forecast {
    pub fn of(told: &engine::Forecast, time: Time) -> Self {
        let seconds = |nanoseconds: f64| nanoseconds.round() / 1e9;
        let seconds = Seconds { likely: seconds(time.likely), ceiling: seconds(time.ceiling) };
        let engine::Forecast { work, list, ceiling } = *told;
        Forecast { work, list, bytes: told.bytes(), ceiling, seconds }
    }
}

/// What programs are told.
#[derive(Default, Serialize)]
pub struct Told<'a> {
    pub refusal: Option<json::Refusal>,
    pub book: Option<Forecast>,
    pub galleys: Vec<Row<'a>>,
}

/// What programs are told of one of several galleys.
#[derive(Serialize)]
pub struct Row<'a> {
    galley: &'a FileName,
    status: &'static str,
    forecast: Option<Forecast>,
    refusal: Option<json::Refusal>,
    error: Option<String>,
}

/// What became of a galley.
enum Answer {
    Foretold(engine::Forecast, Time),
    Refused(Refusal, Vec<u8>),
    Unreadable(Error),
}

fn answer(name: &FileName) -> Answer {
    let bytes = match name.galley() {
        Ok(bytes) => bytes,
        Err(error) => return Answer::Unreadable(error),
    };
    match (engine::forecast(&bytes), Galley::decode(&bytes)) {
        (Ok(told), Some(galley)) => Answer::Foretold(told, Time::of_making(&galley)),
        (Ok(_), None) => Answer::Unreadable(Error::NotDecoded { name: name.clone() }),
        (Err(refusal), _) => Answer::Refused(refusal, bytes),
    }
}

/// What is told of each galley beforehand, in words, as a line or as a row; one that cannot be read does not keep the others from
/// being told.
pub fn run(args: &Args, output: &mut Output) -> Result<Outcome, Error> {
    if args.book {
        return book::foretell(&args.galleys, args.format, output);
    }
    let (mut outcomes, mut told) = (Outcomes::default(), Told::default());
    if args.format.tsv {
        rows::heading(output, &COLUMNS)?;
    }
    for name in &args.galleys {
        let answer = answer(name);
        match answer {
            Answer::Foretold(..) => {}
            Answer::Refused(..) => outcomes.refused = true,
            Answer::Unreadable(_) => outcomes.failed = true,
        }
        match args.format {
            Format { json: true, .. } => told.galleys.push(row(name, answer)),
            Format { tsv: true, .. } => print_row(&row(name, answer), output)?,
            _ => print(args, name, answer, output)?,
        }
    }
    let outcome = outcomes.whole();
    if args.format.json {
        output.print_json(&json::Answer { command: "forecast", outcome, told })?;
    }
    Ok(outcome)
}

/// Prints what people read.
fn print(args: &Args, name: &FileName, answer: Answer, output: &mut Output) -> Result<(), Error> {
    let several = args.galleys.len() > 1;
    let label = Some(name).filter(|_| args.lines || several);
    match answer {
        Answer::Foretold(told, _) if args.lines => output.print_row(needs::line(&told), label)?,
        Answer::Foretold(told, time) => {
            if several {
                output.print([name.bytes(), b":\n"].concat())?;
            }
            output.print(needs::in_words(&told, time))?;
        }
        Answer::Refused(refusal, bytes) => {
            output.print_row(refusal.code(), label)?;
            say_why(name, refusal);
            hint_at_pack(name, &bytes, refusal);
        }
        Answer::Unreadable(error) => say(&error.to_string()),
    }
    Ok(())
}

fn row(galley: &FileName, answer: Answer) -> Row<'_> {
    let empty = Row { galley, status: "unreadable", forecast: None, refusal: None, error: None };
    match answer {
        Answer::Foretold(told, time) => Row { status: "foretold", forecast: Some(Forecast::of(&told, time)), ..empty },
        Answer::Refused(refusal, _) => Row { status: "refused", refusal: Some(refusal.into()), ..empty },
        Answer::Unreadable(error) => Row { error: Some(error.to_string()), ..empty },
    }
}

/// The names of the columns with tabs.
const COLUMNS: [&str; 9] = ["galley", "status", "work", "list", "bytes", "ceiling", "refusal", "place", "reason"];

fn print_row(row: &Row, output: &mut Output) -> Result<(), Error> {
    let (told, refusal) = (row.forecast.as_ref(), row.refusal.as_ref());
    let reason = row.error.clone().or(refusal.map(|refusal| refusal.sentence.clone()));
    let columns: [&dyn rows::Column; 9] = [
        row.galley,
        &row.status,
        &told.map(|told| told.work),
        &told.map(|told| told.list),
        &told.map(|told| told.bytes),
        &told.map(|told| told.ceiling),
        &refusal.map(|refusal| refusal.number),
        &refusal.map(|refusal| refusal.place),
        &reason,
    ];
    rows::row(output, &columns)
}
