//! `barleychime completions`: what a shell needs to complete the command.

use crate::args;
use crate::error::Error;
use crate::output::Output;
use crate::Outcome;
use clap::ValueEnum;

#[derive(clap::Args)]
pub struct Args {
    /// The shell
    pub shell: Shell,
}

#[derive(Clone, Copy, ValueEnum)]
pub enum Shell {
    Bash,
    Zsh,
    Fish,
}

pub fn run(args: &Args, output: &mut Output) -> Result<Outcome, Error> {
    let shell = match args.shell {
        Shell::Bash => clap_complete::Shell::Bash,
        Shell::Zsh => clap_complete::Shell::Zsh,
        Shell::Fish => clap_complete::Shell::Fish,
    };
    let mut script = Vec::new();
    clap_complete::generate(shell, &mut args::command(), "barleychime", &mut script);
    output.print(script).map(|()| Outcome::Success)
}
