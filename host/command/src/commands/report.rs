//! `barleychime report`: exact sums over marked lists, and the mean excess over the engine.

use super::make;
use crate::error::Error;
use crate::input::FileName;
use crate::json;
use crate::marked::{columns, Answer, Marked, Row};
use crate::output::{refuse_galley, say, say_why, Format, Output};
use crate::rows;
use crate::Outcome;
use barleychime::engine::{self, MakeError, Mark, Measure, Report};
use barleychime::marks;
use barleychime::refusal::{Refusal, RefusalKind};
use barleychime::why::Finder;
use serde::Serialize;
use std::fmt::Display;

#[derive(clap::Args)]
pub struct Args {
    /// The galley
    #[arg(required_unless_present = "marks")]
    pub galley: Option<FileName>,
    /// Page lists for it
    #[arg(required_unless_present = "marks", value_name = "LIST")]
    pub lists: Vec<FileName>,
    /// Report on marks as text, a line `p X Y T E` for each paper
    #[arg(long, value_name = "FILE", conflicts_with_all = ["galley", "lists", "tsv"])]
    pub marks: Option<FileName>,
    /// Add a row for each paper, with the page ends that lose turns for good
    #[arg(long, conflicts_with = "marks")]
    pub why: bool,
    #[command(flatten)]
    pub format: Format,
}

/// What programs are told.
#[derive(Default, Serialize)]
struct Told<'a> {
    galley: Option<&'a FileName>,
    refusal: Option<json::Refusal>,
    engine: Option<json::Measure>,
    report: Option<Sums>,
    refused: usize,
    unreadable: usize,
    lists: Vec<Row<'a>>,
}

/// The report itself.
#[derive(Serialize)]
struct Sums {
    papers: u64,
    pages: u64,
    x: u64,
    y: u64,
    turns: u64,
    least: u64,
    greatest: u64,
    excess: u64,
}

impl From<Report> for Sums {
    fn from(report: Report) -> Self {
        let Report { papers, pages, x, y, turns, least, greatest, excess, .. } = report;
        Sums { papers, pages, x, y, turns, least, greatest, excess }
    }
}

pub fn run(args: &Args, output: &mut Output) -> Result<Outcome, Error> {
    match (&args.marks, &args.galley) {
        (Some(file), _) => on_marks(file, args.format, output),
        (None, Some(galley)) => on_lists(galley, args, output),
        (None, None) => Err(Error::Usage("a galley and lists are wanted, or --marks FILE".into())),
    }
}

/// Marks each list and reports on those that are accepted. A list that is refused or cannot be read is no paper, and is counted
/// as such.
fn on_lists(galley: &FileName, args: &Args, output: &mut Output) -> Result<Outcome, Error> {
    let bytes = galley.galley()?;
    if let Err(refusal) = engine::read(&bytes) {
        return refuse_whole(galley, &bytes, args.format, refusal, output);
    }
    let decoded = galley.decoded(&bytes, None)?;
    let unmade = |error| Error::Make { name: galley.clone(), error };
    let mut finder = Finder::new(&bytes, &decoded);
    let best = match finder.best() {
        Ok(best) => best.measure,
        Err(MakeError::Refused(refusal)) => return refuse_whole(galley, &bytes, args.format, refusal, output),
        Err(error) => return Err(unmade(error)),
    };
    let mut marked: Vec<Marked> = args.lists.iter().map(|name| Marked::of(name, &bytes, &decoded)).collect();
    if args.why {
        marked.iter_mut().try_for_each(|marked| marked.find_losses(&mut finder)).map_err(unmade)?;
    }
    let report = engine::report(&papers(&marked, best));
    match args.format {
        Format { json: true, .. } => tell(galley, best, &marked, report, output),
        Format { tsv: true, .. } => {
            rows::heading(output, columns(args.why))?;
            marked.iter().try_for_each(|marked| marked.print_tsv(args.why, output))?;
            Ok(outcome(&marked))
        }
        _ => {
            marked.iter().for_each(Marked::say);
            match report {
                Ok(told) => print(&told, &marked, output),
                Err(refusal) => refuse("the lists", refusal, output),
            }
        }
    }
}

/// The report in words, and a row for each paper whose losses were found.
fn print(told: &Report, marked: &[Marked], output: &mut Output) -> Result<Outcome, Error> {
    output.print(marks::in_words(told) + &marks::no_papers(&refused(marked), unreadable(marked)))?;
    for paper in marked.iter().filter(|marked| marked.losses.is_some()) {
        output.print_row(paper.line(), Some(paper.name))?;
    }
    Ok(outcome(marked))
}

/// A galley that has no list of the engine's to compare with.
fn refuse_whole(
    galley: &FileName,
    bytes: &[u8],
    format: Format,
    refusal: Refusal,
    output: &mut Output,
) -> Result<Outcome, Error> {
    if format.json {
        return answer(
            Outcome::Refused,
            Told { galley: Some(galley), refusal: Some(refusal.into()), ..Told::default() },
            output,
        );
    }
    let outcome = refuse_galley(galley, bytes, refusal, format, output)?;
    if refusal.kind == RefusalKind::NoPagination {
        say(&format!("{galley}: {}", make::ADVICE));
    }
    Ok(outcome)
}

/// The marks of the lists that are accepted.
fn papers(marked: &[Marked], best: Measure) -> Vec<Mark> {
    let paper = |marked: &Marked| match marked.answer {
        Answer::Accepted(Measure { pages, x, y, turns, .. }) => Some(Mark { pages, x, y, turns, engine: best.turns }),
        _ => None,
    };
    marked.iter().filter_map(paper).collect()
}

fn refused(marked: &[Marked]) -> Vec<Refusal> {
    let refusal = |marked: &Marked| match marked.answer {
        Answer::Refused(refusal) => Some(refusal),
        _ => None,
    };
    marked.iter().filter_map(refusal).collect()
}

fn unreadable(marked: &[Marked]) -> usize {
    marked.iter().filter(|marked| matches!(marked.answer, Answer::Unreadable(_))).count()
}

/// A list that is refused is no failure of the report; one that cannot be read is.
fn outcome(marked: &[Marked]) -> Outcome {
    match unreadable(marked) {
        0 => Outcome::Success,
        _ => Outcome::Failed,
    }
}

fn tell(
    galley: &FileName,
    best: Measure,
    marked: &[Marked],
    report: Result<Report, Refusal>,
    output: &mut Output,
) -> Result<Outcome, Error> {
    let outcome = if report.is_ok() { outcome(marked) } else { Outcome::Refused };
    let told = Told {
        galley: Some(galley),
        refusal: report.err().map(Into::into),
        engine: Some(best.into()),
        report: report.ok().map(Into::into),
        refused: refused(marked).len(),
        unreadable: unreadable(marked),
        lists: marked.iter().map(Marked::json).collect(),
    };
    answer(outcome, told, output)
}

/// Reports on marks that are handed in as text.
fn on_marks(name: &FileName, format: Format, output: &mut Output) -> Result<Outcome, Error> {
    let entries = marks::parse(&name.text()?).map_err(|error| Error::Marks { name: name.clone(), error })?;
    let marks: Vec<Mark> = entries.iter().map(|entry| entry.mark).collect();
    match engine::report(&marks) {
        Ok(report) if format.json => {
            answer(Outcome::Success, Told { report: Some(report.into()), ..Told::default() }, output)
        }
        Err(refusal) if format.json => {
            answer(Outcome::Refused, Told { refusal: Some(refusal.into()), ..Told::default() }, output)
        }
        Ok(report) => output.print(marks::in_words(&report)).map(|()| Outcome::Success),
        Err(refusal) => match entries.get((refusal.place as usize).wrapping_sub(1)) {
            Some(entry) => refuse(format!("{name}: line {}", entry.line), refusal, output),
            None => refuse(name, refusal, output),
        },
    }
}

fn answer(outcome: Outcome, told: Told, output: &mut Output) -> Result<Outcome, Error> {
    output.print_json(&json::Answer { command: "report", outcome, told }).map(|()| outcome)
}

fn refuse(what: impl Display, refusal: Refusal, output: &mut Output) -> Result<Outcome, Error> {
    output.print_row(refusal.code(), None)?;
    say_why(what, refusal);
    Ok(Outcome::Refused)
}
