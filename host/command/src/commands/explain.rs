//! `barleychime explain`: page lists in words, page by page, and where their turns are lost.

use super::Outcomes;
use crate::error::Error;
use crate::explained::Explained;
use crate::input::FileName;
use crate::json;
use crate::marked::Marked;
use crate::output::{hint_at_pack, Output};
use crate::Outcome;
use barleychime::engine;
use barleychime::explanation;
use barleychime::galley::Galley;
use barleychime::list::Extent;
use barleychime::refusal::Refusal;
use barleychime::why::Finder;
use serde::Serialize;

#[derive(clap::Args)]
pub struct Args {
    /// The galley
    pub galley: FileName,
    /// Page lists for it
    #[arg(required = true, value_name = "LIST")]
    pub lists: Vec<FileName>,
    /// Open the galley on folio N, as a chapter of a book
    #[arg(long, value_name = "N", value_parser = clap::value_parser!(u32).range(1..))]
    pub folio: Option<u32>,
    /// Say only which page ends lose turns for good
    #[arg(long)]
    pub why: bool,
    /// Print one JSON object
    #[arg(long)]
    pub json: bool,
}

/// What programs are told.
#[derive(Serialize)]
struct Told<'a> {
    galley: &'a FileName,
    refusal: Option<json::Refusal>,
    lists: Vec<Explained<'a>>,
}

/// Explains each list; one that cannot be read does not keep the others from being explained.
pub fn run(args: &Args, output: &mut Output) -> Result<Outcome, Error> {
    let bytes = args.galley.galley_on(args.folio)?;
    if args.json {
        return tell(args, &bytes, output);
    }
    if let Err(refusal) = engine::read(&bytes) {
        output.print(explanation::refused_galley(&bytes, refusal))?;
        hint_at_pack(&args.galley, &bytes, refusal);
        return Ok(Outcome::Refused);
    }
    let galley = args.galley.decoded(&bytes, args.folio)?;
    let unmade = |error| Error::Make { name: args.galley.clone(), error };
    let mut finder = Finder::new(&bytes, &galley);
    let mut outcomes = Outcomes::default();
    for (before, name) in args.lists.iter().enumerate() {
        let Some(words) = outcomes.read(name.list(galley.page_words(), Extent::Whole)) else { continue };
        let words = words.words;
        if args.lists.len() > 1 {
            output.print([if before > 0 { &b"\n"[..] } else { b"" }, name.bytes(), b":\n"].concat())?;
        }
        match engine::mark(&bytes, &words) {
            Ok(measure) => {
                let best = finder.best().map_err(unmade)?.measure;
                if !args.why {
                    output.print(explanation::accepted(&galley, &words, measure))?;
                    output.print(explanation::against_best(best, measure))?;
                }
                if args.why || best.turns < measure.turns {
                    let losses = finder.losses(&words, measure).map_err(unmade)?;
                    output.print(explanation::lost(&losses))?;
                }
            }
            Err(refusal) => {
                output.print(refused(args, &galley, &words, refusal))?;
                outcomes.refused = true;
            }
        }
    }
    Ok(outcomes.whole())
}

fn tell(args: &Args, bytes: &[u8], output: &mut Output) -> Result<Outcome, Error> {
    let mut outcomes = Outcomes::default();
    let mut told = Told { galley: &args.galley, refusal: None, lists: vec![] };
    match engine::read(bytes) {
        Err(refusal) => {
            told.refusal = Some(refusal.into());
            outcomes.refused = true;
        }
        Ok(()) => {
            let galley = args.galley.decoded(bytes, args.folio)?;
            let mut finder = Finder::new(bytes, &galley);
            for name in &args.lists {
                let marked = Marked::of(name, bytes, &galley);
                outcomes.count(&marked);
                let explained = Explained::of(&marked, &galley, &mut finder);
                told.lists.push(explained.map_err(|error| Error::Make { name: args.galley.clone(), error })?);
            }
        }
    }
    let outcome = outcomes.whole();
    output.print_json(&json::Answer { command: "explain", outcome, told }).map(|()| outcome)
}

/// A refused list loses no turns; with --why it is told why alone.
fn refused(args: &Args, galley: &Galley, words: &[u32], refusal: Refusal) -> String {
    match args.why {
        true => format!("refused, {}: {}\n", refusal.code(), explanation::in_numbers(galley, words)),
        false => explanation::refused(galley, words, refusal),
    }
}

#[cfg(test)]
mod tests {
    use barleychime::galley::Galley;
    use barleychime::why::Finder;
    use barleychime::{engine, explanation, rules, text};
    use serde_json::{json, Value};

    /// What the command says of a list, and the page in the browser too.
    const CASES: &str = include_str!("../../../../tests/explanations/cases.json");

    fn told(case: &Value) -> (Value, Value, Value) {
        let bytes = text::pack(case["galley"].as_str().expect("a text")).expect("a galley").bytes;
        let galley = Galley::decode(&bytes).expect("records in order");
        let numbers = case["list"].as_array().expect("pages").iter().flat_map(|page| page.as_array().expect("an end"));
        let list: Vec<u32> = numbers.map(|number| number.as_u64().expect("a count") as u32).collect();
        let broken = rules::broken(&galley, &list).into_iter();
        let broken = broken.map(|each| json!({"page": each.page, "rule": each.rule, "numbers": each.numbers}));
        let (answer, lost) = match engine::mark(&bytes, &list) {
            Err(refusal) => (refusal.code(), vec![]),
            Ok(measure) => {
                let losses = Finder::new(&bytes, &galley).losses(&list, measure).expect("a galley that can be made");
                (barleychime::list::measure_line(measure), losses)
            }
        };
        let lost = lost.into_iter().map(|loss| {
            json!({"page": loss.page, "line": loss.line, "turns": loss.turns, "floats": loss.floats,
                   "leaves": loss.leaves, "words": loss.in_words()})
        });
        (answer.into(), broken.collect(), lost.collect())
    }

    #[test]
    fn lists_are_explained_as_the_cases_have_it() {
        let file: Value = serde_json::from_str(CASES).expect("JSON");
        let cases = file["cases"].as_array().expect("cases");
        assert!(cases.len() > 50);
        for case in cases {
            let due = (case["answer"].clone(), case["broken"].clone(), case["lost"].clone());
            assert_eq!(told(case), due, "{}", case["name"]);
        }
    }

    #[test]
    fn a_list_without_loss_says_so() {
        assert_eq!(explanation::lost(&[]), "no turn is lost for good\n");
    }
}
