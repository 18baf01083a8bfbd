//! `barleychime unpack`: a galley file as text.

use crate::error::Error;
use crate::input::FileName;
use crate::output::{hint_at_pack, say, say_why, Output};
use crate::Outcome;
use barleychime::{engine, text};

#[derive(clap::Args)]
pub struct Args {
    /// The galley
    pub galley: FileName,
}

pub fn run(args: &Args, output: &mut Output) -> Result<Outcome, Error> {
    let name = &args.galley;
    let bytes = name.galley()?;
    let (text, end) = text::unpack(&bytes);
    output.print(text)?;
    let Err(refusal) = engine::read(&bytes) else { return Ok(Outcome::Success) };
    say_why(name, refusal);
    if end < bytes.len() {
        say(&format!("{name}: from byte {end} on there is no whole record, and nothing is written"));
    }
    hint_at_pack(name, &bytes, refusal);
    Ok(Outcome::Refused)
}
