//! `barleychime make`: the best page list of a galley.

use super::series;
use crate::error::Error;
use crate::input::FileName;
use crate::json;
use crate::output::{refuse_galley, say, say_why, watched, Format, Output};
use crate::rows;
use crate::Outcome;
use barleychime::engine::{self, MakeError, Memory};
use barleychime::galley::Galley;
use barleychime::list::{self, Extent};
use barleychime::refusal::{Refusal, RefusalKind};
use barleychime::{explanation, fill};
use serde::Serialize;
use std::path::PathBuf;

#[derive(clap::Args)]
pub struct Args {
    /// The galley; with --out any number of them
    #[arg(required = true, value_name = "GALLEY")]
    pub galleys: Vec<FileName>,
    /// Make many on all cores, NAME.galley into DIR/NAME.list
    #[arg(long, value_name = "DIR", conflicts_with_all = ["after", "advise", "verbose", "json", "tsv"])]
    pub out: Option<PathBuf>,
    /// Memory for --out, as 500M or 8G; if not said, half of the machine's
    #[arg(long, value_name = "SIZE", requires = "out", value_parser = series::bytes)]
    pub memory: Option<u64>,
    /// Keep the pages of LIST, which are printed, and make the rest
    #[arg(long, value_name = "LIST")]
    pub after: Option<FileName>,
    /// If no pagination exists, say which least heights would do
    #[arg(long)]
    pub advise: bool,
    /// Say how many pages were weighed
    #[arg(long)]
    pub verbose: bool,
    #[command(flatten)]
    pub format: Format,
}

/// What programs are told.
#[derive(Serialize)]
struct Told<'a> {
    galley: &'a FileName,
    refusal: Option<json::Refusal>,
    measure: Option<json::Measure>,
    pages: Vec<json::Page>,
    weighed: u64,
    ceiling: Option<u64>,
    remarks: Vec<String>,
}

pub fn run(args: &Args, output: &mut Output) -> Result<Outcome, Error> {
    match (&args.out, args.galleys.as_slice()) {
        (Some(folder), galleys) => {
            let memory = args.memory.or_else(series::half_of_memory);
            let memory = memory
                .ok_or_else(|| Error::Usage("--memory is wanted: this machine does not say how much it has".into()))?;
            series::run(galleys, folder, memory, output)
        }
        (None, [galley]) => one(galley, args, output),
        (None, _) => Err(Error::Usage(
            "make: several galleys want a folder for their lists, --out DIR; `barleychime help make` says more".into(),
        )),
    }
}

/// Makes a galley; what was weighed is said as far as the galley reads.
fn one(name: &FileName, args: &Args, output: &mut Output) -> Result<Outcome, Error> {
    let bytes = name.galley()?;
    let opening = match (&args.after, engine::page_words(&bytes)) {
        (None, _) => vec![],
        (Some(list), Ok(words)) => list.list(words, Extent::Opening)?.words,
        // The galley is refused before its opening is looked at.
        (Some(_), Err(_)) => vec![],
    };
    if args.format.json {
        return tell(name, args, &bytes, &opening, output);
    }
    let mut memory = Memory::new();
    let refusal = match memory.make_after(&bytes, &opening) {
        Ok((measure, pages)) => {
            let words = pages.len() / measure.pages as usize;
            match args.format.tsv {
                false => output.print(list::print(measure, pages, words))?,
                true => print_rows(pages, words, output)?,
            }
            None
        }
        Err(MakeError::Refused(refusal)) => Some(refusal),
        Err(error) => return Err(Error::Make { name: name.clone(), error }),
    };
    let weighed = memory.weighed();
    let outcome = match (refusal, &args.after) {
        (None, _) => Outcome::Success,
        (Some(refusal), Some(list)) if matches!(refusal.kind, RefusalKind::BadOpening | RefusalKind::NothingLeft) => {
            refuse_opening(list, &bytes, &opening, refusal, args.format, output)?
        }
        (Some(refusal), _) => {
            let outcome = refuse_galley(name, &bytes, refusal, args.format, output)?;
            if refusal.kind == RefusalKind::NoPagination {
                advise(name, args.advise, &bytes, &opening, &mut memory);
            }
            outcome
        }
    };
    if let (true, Ok(told)) = (args.verbose, engine::forecast(&bytes)) {
        say(&format!("{name}: {weighed} pages weighed, of at most {}", told.ceiling));
    }
    Ok(outcome)
}

fn tell(name: &FileName, args: &Args, bytes: &[u8], opening: &[u32], output: &mut Output) -> Result<Outcome, Error> {
    let mut memory = Memory::new();
    let ceiling = engine::forecast(bytes).ok().map(|told| told.ceiling);
    let mut told =
        Told { galley: name, refusal: None, measure: None, pages: vec![], weighed: 0, ceiling, remarks: vec![] };
    let mut outcome = Outcome::Success;
    match memory.make_after(bytes, opening) {
        Ok((measure, pages)) => {
            told.pages = json::pages(pages, pages.len() / measure.pages as usize);
            told.measure = Some(measure.into());
        }
        Err(MakeError::Refused(refusal)) => {
            outcome = Outcome::Refused;
            told.refusal = Some(refusal.into());
        }
        Err(error) => return Err(Error::Make { name: name.clone(), error }),
    }
    told.weighed = memory.weighed();
    match told.refusal.as_ref().map(|refusal| (RefusalKind::of(refusal.number), refusal.place)) {
        Some((RefusalKind::NoPagination, _)) if args.advise => {
            told.remarks = fill::advice(bytes, opening, &mut memory, &mut |_| ());
        }
        Some((RefusalKind::BadOpening, page)) => {
            let galley = Galley::decode(bytes);
            told.remarks = galley
                .and_then(|galley| explanation::broken_opening(&galley, opening, page as usize))
                .into_iter()
                .collect();
        }
        _ => {}
    }
    output.print_json(&json::Answer { command: "make", outcome, told }).map(|()| outcome)
}

fn print_rows(list: &[u32], words: usize, output: &mut Output) -> Result<(), Error> {
    rows::heading(output, &["page", "lines", "figures", "tables"])?;
    let print = |page: &json::Page| rows::row(output, &[&page.page, &page.lines, &page.figures, &page.tables]);
    json::pages(list, words).iter().try_for_each(print)
}

/// An opening that no list can begin with, and the rule that it breaks.
fn refuse_opening(
    list: &FileName,
    bytes: &[u8],
    opening: &[u32],
    refusal: Refusal,
    format: Format,
    output: &mut Output,
) -> Result<Outcome, Error> {
    if !format.tsv {
        output.print_row(refusal.code(), None)?;
    }
    say_why(list, refusal);
    if let (RefusalKind::BadOpening, Some(galley)) = (refusal.kind, Galley::decode(bytes)) {
        let broken = explanation::broken_opening(&galley, opening, refusal.place as usize);
        broken.iter().for_each(|broken| say(&format!("{list}: {broken}")));
    }
    Ok(Outcome::Refused)
}

/// What is said on 11 unless the advice itself is.
pub const ADVICE: &str = "`barleychime make --advise` tries lower least heights and says which would do";

/// What would help where no pagination exists, if that is asked for. It takes a making for each trial, so a person at a
/// terminal is told what is tried.
fn advise(name: &FileName, is_asked: bool, bytes: &[u8], opening: &[u32], memory: &mut Memory) {
    let remark = |what: &str| say(&format!("{name}: {what}"));
    if !opening.is_empty() {
        remark("11 is here about the paginations that begin with the opening");
    }
    if !is_asked {
        remark(ADVICE);
        return;
    }
    let mut tell = |what: &str| {
        if watched() {
            remark(what);
        }
    };
    fill::advice(bytes, opening, memory, &mut tell).iter().for_each(|advice| remark(advice));
}
