//! `barleychime refusals`: every refusal, with who can mend it.

use crate::error::Error;
use crate::output::{wrapped, Output};
use crate::Outcome;
use barleychime::refusal::RefusalKind;
use serde::Serialize;

#[derive(clap::Args)]
pub struct Args {
    /// Print one JSON array
    #[arg(long)]
    pub json: bool,
}

/// A row of the table.
#[derive(Serialize)]
struct Row {
    number: u32,
    name: &'static str,
    words: &'static str,
    place: &'static str,
    mender: &'static str,
}

pub fn run(args: &Args, output: &mut Output) -> Result<Outcome, Error> {
    let rows = RefusalKind::ALL.iter().map(|kind| {
        let meaning = kind.meaning();
        let (place, mender) = (meaning.place.words(), meaning.mender);
        Row { number: meaning.number, name: meaning.name, words: meaning.words, place, mender }
    });
    match args.json {
        true => output.print_json(&rows.collect::<Vec<_>>())?,
        false => output.print(page(rows))?,
    }
    Ok(Outcome::Success)
}

/// The table as a page: the refusals of each who can mend them together, with their places.
fn page(rows: impl Iterator<Item = Row>) -> String {
    let mut text = String::from("A refusal is `R number place`.\n");
    let mut mender = "";
    for row in rows {
        if row.mender != mender {
            mender = row.mender;
            text += &format!("\n{mender} can mend:\n");
        }
        let told = format!("{}: {} (place: {})", row.name, row.words, row.place);
        text += &format!("  {:2}  {}\n", row.number, wrapped(&told, 6));
    }
    text
}
