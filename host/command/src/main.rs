//! The command `barleychime`.
#![deny(unsafe_code, clippy::undocumented_unsafe_blocks)]

mod args;
mod call;
mod closed;
mod commands;
mod error;
mod explained;
mod help;
mod input;
mod json;
mod lines;
mod marked;
mod output;
mod rows;
mod wrong;

use output::{say, Output};
use std::process::ExitCode;

/// How a command ended that was not kept from its work by an error.
#[derive(Clone, Copy, Debug, PartialEq, Eq, serde::Serialize)]
#[serde(rename_all = "lowercase")]
pub enum Outcome {
    Success,
    Refused,
    /// Some of several files could not be read; what could be done was done.
    Failed,
}

const REFUSED: u8 = 1;
const FAILED: u8 = 2;
/// As of a program that the signal of a closed pipe ends.
const NOBODY_READS: u8 = 128 + 13;

fn main() -> ExitCode {
    match args::run(std::env::args_os(), &mut Output::new()) {
        Ok(Outcome::Success) => ExitCode::SUCCESS,
        Ok(Outcome::Refused) => ExitCode::from(REFUSED),
        Ok(Outcome::Failed) => ExitCode::from(FAILED),
        Err(error) if error.is_closed_pipe() => ExitCode::from(NOBODY_READS),
        Err(error) => {
            say(&error.to_string());
            ExitCode::from(FAILED)
        }
    }
}
