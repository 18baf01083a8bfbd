//! `barleychime fold`: stitched sections, sheet by sheet.

use crate::error::{Error, WordError};
use crate::json;
use crate::output::{say, Format, Output};
use crate::rows;
use crate::Outcome;
use barleychime::engine;
use barleychime::field::{no_number, whole_number};
use barleychime::list::spaced;
use barleychime::refusal::Refusal;
use serde::Serialize;

#[derive(clap::Args)]
pub struct Args {
    /// Pages of the section; without it all sections
    #[arg(value_parser = size)]
    pub size: Option<u32>,
    #[command(flatten)]
    pub format: Format,
}

/// A size is any number: the engine says of which there is a section.
fn size(word: &str) -> Result<u32, WordError> {
    whole_number(word).ok_or_else(|| WordError(no_number(word)))
}

const SIZES: std::ops::RangeInclusive<u32> = 4..=64;

/// A section as its pages stand on the nested sheets, the outermost first.
#[derive(Serialize)]
struct Section {
    size: u32,
    sheets: Vec<Sheet>,
}

/// The left and the right page of a sheet's front, and of its back.
#[derive(Serialize)]
struct Sheet {
    front: [u32; 2],
    back: [u32; 2],
}

/// What programs are told.
#[derive(Serialize)]
struct Told {
    refusal: Option<json::Refusal>,
    sections: Vec<Section>,
}

pub fn run(args: &Args, output: &mut Output) -> Result<Outcome, Error> {
    let sections = match args.size {
        Some(size) => section(size).map(|section| vec![section]),
        None => SIZES.step_by(4).map(section).collect(),
    };
    let outcome = if sections.is_ok() { Outcome::Success } else { Outcome::Refused };
    if args.format.json {
        let refusal = sections.as_ref().err().copied().map(Into::into);
        let told = Told { refusal, sections: sections.unwrap_or_default() };
        return output.print_json(&json::Answer { command: "fold", outcome, told }).map(|()| outcome);
    }
    match (sections, args.format.tsv) {
        (Ok(sections), false) => output.print(in_words(&sections))?,
        (Ok(sections), true) => print_rows(&sections, output)?,
        (Err(refusal), tsv) => {
            if !tsv {
                output.print_row(refusal.code(), None)?;
            }
            say(&refusal.to_string());
        }
    }
    Ok(outcome)
}

fn section(size: u32) -> Result<Section, Refusal> {
    let mut numbers = [0; 64];
    let pages = engine::section(size, &mut numbers)?;
    let sheet = |four: &[u32]| Sheet { front: [four[0], four[1]], back: [four[2], four[3]] };
    Ok(Section { size, sheets: pages.chunks_exact(4).map(sheet).collect() })
}

/// A line for each sheet, and an empty one between two sections.
fn in_words(sections: &[Section]) -> String {
    let line = |sheet: &Sheet| spaced(&[sheet.front, sheet.back].concat()) + "\n";
    let texts = sections.iter().map(|section| section.sheets.iter().map(line).collect::<String>());
    texts.collect::<Vec<_>>().join("\n")
}

fn print_rows(sections: &[Section], output: &mut Output) -> Result<(), Error> {
    rows::heading(output, &["size", "sheet", "front_left", "front_right", "back_left", "back_right"])?;
    for Section { size, sheets } in sections {
        for (before, Sheet { front, back }) in sheets.iter().enumerate() {
            rows::row(output, &[size, &(before + 1), &front[0], &front[1], &back[0], &back[1]])?;
        }
    }
    Ok(())
}
