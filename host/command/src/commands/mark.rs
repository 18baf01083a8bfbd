//! `barleychime mark`: pages and turns of page lists, or what they break.

use super::Outcomes;
use crate::error::Error;
use crate::input::FileName;
use crate::json;
use crate::marked::{columns, Marked, Row};
use crate::output::{refuse_galley, Format, Output};
use crate::rows;
use crate::Outcome;
use barleychime::engine;
use barleychime::refusal::Refusal;
use barleychime::why::Finder;
use serde::Serialize;

#[derive(clap::Args)]
pub struct Args {
    /// The galley
    pub galley: FileName,
    /// Page lists for it
    #[arg(required = true, value_name = "LIST")]
    pub lists: Vec<FileName>,
    /// Open the galley on folio N, as a chapter of a book
    #[arg(long, value_name = "N", value_parser = clap::value_parser!(u32).range(1..))]
    pub folio: Option<u32>,
    /// Add the page ends that lose turns for good: `4:2` is 2 by page 4
    #[arg(long)]
    pub why: bool,
    #[command(flatten)]
    pub format: Format,
}

/// What programs are told.
#[derive(Serialize)]
struct Told<'a> {
    galley: &'a FileName,
    refusal: Option<json::Refusal>,
    lists: Vec<Row<'a>>,
}

/// Marks each list, a row each; one that cannot be read is a row with `?`.
pub fn run(args: &Args, output: &mut Output) -> Result<Outcome, Error> {
    let bytes = args.galley.galley_on(args.folio)?;
    if let Err(refusal) = engine::read(&bytes) {
        return refuse(args, &bytes, refusal, output);
    }
    let galley = args.galley.decoded(&bytes, args.folio)?;
    let mut finder = args.why.then(|| Finder::new(&bytes, &galley));
    let (mut outcomes, mut told) = (Outcomes::default(), Vec::new());
    if args.format.tsv {
        rows::heading(output, columns(args.why))?;
    }
    for name in &args.lists {
        let mut marked = Marked::of(name, &bytes, &galley);
        if let Some(finder) = &mut finder {
            marked.find_losses(finder).map_err(|error| Error::Make { name: args.galley.clone(), error })?;
        }
        outcomes.count(&marked);
        match args.format {
            Format { json: true, .. } => told.push(marked.json()),
            Format { tsv: true, .. } => marked.print_tsv(args.why, output)?,
            _ => {
                output.print_row(marked.line(), Some(name).filter(|_| args.lists.len() > 1))?;
                marked.say();
            }
        }
    }
    match args.format.json {
        true => tell(args, outcomes.whole(), None, told, output),
        false => Ok(outcomes.whole()),
    }
}

/// A refused galley is told once, and has no rows.
fn refuse(args: &Args, bytes: &[u8], refusal: Refusal, output: &mut Output) -> Result<Outcome, Error> {
    match args.format.json {
        true => tell(args, Outcome::Refused, Some(refusal), vec![], output),
        false => refuse_galley(&args.galley, bytes, refusal, args.format, output),
    }
}

fn tell(
    args: &Args,
    outcome: Outcome,
    refusal: Option<Refusal>,
    lists: Vec<Row>,
    output: &mut Output,
) -> Result<Outcome, Error> {
    let told = Told { galley: &args.galley, refusal: refusal.map(Into::into), lists };
    output.print_json(&json::Answer { command: "mark", outcome, told })?;
    Ok(outcome)
}
