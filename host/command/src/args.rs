//! The arguments of the command.

use crate::commands::{
    book, completions, desk, explain, fold, forecast, make, man, mark, pack, refusals, report, show, tex, unpack,
};
use crate::error::Error;
use crate::output::{self, Output};
use crate::{help, json, wrong, Outcome};
use clap::builder::ValueHint;
use clap::error::ErrorKind;
use clap::{CommandFactory, FromArgMatches, Parser, Subcommand};
use std::ffi::OsString;

/// Makes the pages of a galley with the fewest page turns, and marks page lists.
#[derive(Parser)]
#[command(name = "barleychime", version, after_help = help::WHOLE)]
#[command(help_template = "{usage}\n\n{about}\n\n{subcommands}{after-help}\n")]
struct Whole {
    #[command(subcommand)]
    command: Commands,
}

#[derive(Subcommand)]
enum Commands {
    /// The best page list of a galley
    #[command(after_help = help::MAKE)]
    Make(make::Args),
    /// The best page lists of the chapters of a book
    #[command(after_help = help::BOOK)]
    Book(book::Args),
    /// Memory, pages weighed and time, told before a galley is made
    #[command(after_help = help::FORECAST)]
    Forecast(forecast::Args),
    /// Pages and turns of page lists, or what they break
    #[command(after_help = help::MARK)]
    Mark(mark::Args),
    /// Page lists in words, page by page, and where turns are lost
    #[command(after_help = help::EXPLAIN)]
    Explain(explain::Args),
    /// Page ends tried on a page list, call by call
    #[command(after_help = help::DESK)]
    Desk(desk::Args),
    /// The pages to look at and to work on, as one file
    #[command(after_help = help::SHOW)]
    Show(show::Args),
    /// A galley written as text, as a galley file
    #[command(after_help = help::PACK)]
    Pack(pack::Args),
    /// A galley file as text
    #[command(after_help = help::UNPACK)]
    Unpack(unpack::Args),
    /// Exact sums over marked lists, and the excess over the engine
    #[command(after_help = help::REPORT)]
    Report(report::Args),
    /// The pages of stitched sections, sheet by sheet
    #[command(after_help = help::FOLD)]
    Fold(fold::Args),
    /// A LaTeX document's pages, by LuaLaTeX and the engine in turn
    #[command(after_help = help::TEX)]
    Tex(tex::Args),
    /// Every refusal in words, with who can mend it
    #[command(after_help = help::REFUSALS)]
    Refusals(refusals::Args),
    /// Completions for a shell
    #[command(after_help = help::COMPLETIONS, hide = true)]
    Completions(completions::Args),
    /// The manual page
    #[command(after_help = help::MAN, hide = true)]
    Man(man::Args),
}

/// The whole command line, with what help, completions and the manual page share.
pub fn command() -> clap::Command {
    let template = "{usage}\n\n{about}\n\n{all-args}{after-help}\n";
    let names: Vec<String> = Whole::command().get_subcommands().map(|command| command.get_name().to_owned()).collect();
    let whole = Whole::command().term_width(COLUMNS);
    names
        .iter()
        .fold(whole, |whole, name| whole.mut_subcommand(name, |command| hinted(command.help_template(template))))
}

/// A screen.
const COLUMNS: usize = 80;

/// Tells completions which arguments are files.
fn hinted(mut command: clap::Command) -> clap::Command {
    let is_file = |argument: &&clap::Arg| {
        let names = argument.get_value_names().unwrap_or_default();
        names.iter().any(|name| ["GALLEY", "CHAPTER", "LIST", "TEXT", "FILE"].contains(&name.as_str()))
    };
    let files: Vec<clap::Id> = command.get_arguments().filter(is_file).map(|file| file.get_id().clone()).collect();
    for file in files {
        command = command.mut_arg(file, |argument| argument.value_hint(ValueHint::FilePath));
    }
    command
}

/// Does what the arguments say; the first one is the program's name.
pub fn run(arguments: impl IntoIterator<Item = OsString>, output: &mut Output) -> Result<Outcome, Error> {
    let arguments: Vec<OsString> = arguments.into_iter().collect();
    let matches = match command().try_get_matches_from(&arguments) {
        Ok(matches) => matches,
        Err(error) => return told(error, &arguments, output),
    };
    if names_of_standard_input(&matches) > 1 {
        return Err(Error::Usage("standard input can be read only once, and - stands here twice".into()));
    }
    let whole = match Whole::from_arg_matches(&matches) {
        Ok(whole) => whole,
        Err(error) => return told(error, &arguments, output),
    };
    let answered = whole.command.run(output);
    match (&answered, whole.command.told_to_programs()) {
        (Err(Error::Output(_)), _) | (Ok(_), _) | (_, None) => {}
        (Err(error), Some(command)) => {
            let (outcome, told) = (Outcome::Failed, json::Failure::from(error));
            output.print_json(&json::Answer { command, outcome, told })?;
        }
    }
    answered
}

impl Commands {
    /// The name of the command, if its answer is for programs.
    fn told_to_programs(&self) -> Option<&'static str> {
        let (json, name) = match self {
            Commands::Make(args) => (args.format.json, "make"),
            Commands::Book(args) => (args.format.json, "book"),
            Commands::Forecast(args) => (args.format.json, "forecast"),
            Commands::Mark(args) => (args.format.json, "mark"),
            Commands::Explain(args) => (args.json, "explain"),
            Commands::Report(args) => (args.format.json, "report"),
            Commands::Fold(args) => (args.format.json, "fold"),
            _ => return None,
        };
        json.then_some(name)
    }

    fn run(&self, output: &mut Output) -> Result<Outcome, Error> {
        match self {
            Commands::Make(args) => make::run(args, output),
            Commands::Book(args) => book::run(args, output),
            Commands::Forecast(args) => forecast::run(args, output),
            Commands::Mark(args) => mark::run(args, output),
            Commands::Explain(args) => explain::run(args, output),
            Commands::Desk(args) => desk::run(args, output),
            Commands::Show(args) => show::run(args, output),
            Commands::Pack(args) => pack::run(args, output),
            Commands::Unpack(args) => unpack::run(args, output),
            Commands::Report(args) => report::run(args, output),
            Commands::Fold(args) => fold::run(args, output),
            Commands::Tex(args) => tex::run(args, output),
            Commands::Refusals(args) => refusals::run(args, output),
            Commands::Completions(args) => completions::run(args, output),
            Commands::Man(args) => man::run(args, output),
        }
    }
}

/// How many arguments of the command that is called are `-`; after --out that is standard output.
fn names_of_standard_input(matches: &clap::ArgMatches) -> usize {
    let Some((_, matches)) = matches.subcommand() else { return 0 };
    let raw = matches
        .ids()
        .filter(|id| id.as_str() != "out")
        .filter_map(|id| matches.try_get_raw(id.as_str()).ok().flatten());
    raw.flatten().filter(|&value| value == "-").count()
}

/// Help and version are answers; anything else is a wrong call.
fn told(error: clap::Error, arguments: &[OsString], output: &mut Output) -> Result<Outcome, Error> {
    match error.kind() {
        ErrorKind::DisplayHelp | ErrorKind::DisplayVersion => {
            let help = match output::coloured(&std::io::stdout()) {
                true => error.render().ansi().to_string(),
                false => error.render().to_string(),
            };
            output.print(help.trim_end().to_owned() + "\n").map(|()| Outcome::Success)
        }
        _ => Err(Error::Usage(wrong::in_words(&error, named(arguments).as_deref()))),
    }
}

/// The command that the arguments name.
fn named(arguments: &[OsString]) -> Option<String> {
    let first = arguments.get(1)?.to_str()?;
    command().get_subcommands().find(|command| command.get_name() == first).map(|_| first.to_owned())
}

#[cfg(test)]
mod tests {
    use super::*;

    #[test]
    fn the_definitions_are_sound() {
        command().debug_assert();
    }

    #[test]
    fn the_command_that_is_meant_is_found() {
        let arguments = |words: &[&str]| words.iter().map(OsString::from).collect::<Vec<_>>();
        assert_eq!(named(&arguments(&["barleychime", "make", "--mend"])).as_deref(), Some("make"));
        assert_eq!(named(&arguments(&["barleychime", "mend"])), None);
        assert_eq!(named(&arguments(&["barleychime"])), None);
    }
}
