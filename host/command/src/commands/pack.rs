//! `barleychime pack`: a galley written as text, as a galley file.

use crate::error::Error;
use crate::input::FileName;
use crate::output::{say, Output};
use crate::Outcome;
use barleychime::text;

#[derive(clap::Args)]
pub struct Args {
    /// A galley as text, one record a line
    pub text: FileName,
}

pub fn run(args: &Args, output: &mut Output) -> Result<Outcome, Error> {
    let name = &args.text;
    let packed = text::pack(&name.text()?).map_err(|error| Error::Text { name: name.clone(), error })?;
    if let Err(what) = packed.judge() {
        say(&format!("{name}: {what}"));
        return Ok(Outcome::Refused);
    }
    output.print(packed.bytes)?;
    Ok(Outcome::Success)
}
