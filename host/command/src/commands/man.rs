//! `barleychime man`: the manual page, from the same definitions as the help.

use crate::args;
use crate::error::Error;
use crate::output::Output;
use crate::Outcome;
use clap::{Arg, Command};

#[derive(clap::Args)]
pub struct Args {}

pub fn run(_args: &Args, output: &mut Output) -> Result<Outcome, Error> {
    output.print(page(args::command())).map(|()| Outcome::Success)
}

/// The page, in the language of man(7).
fn page(mut command: Command) -> String {
    command.build();
    let about = plain(command.get_about());
    let mut page = format!(
        ".TH BARLEYCHIME 1 \"\" \"barleychime {}\" \"User Commands\"\n\
         .SH NAME\nbarleychime \\- page make\\-up with the fewest page turns\n\
         .SH SYNOPSIS\n.B barleychime\n.I COMMAND\n.RI [ ARGUMENT ...]\n\
         .SH DESCRIPTION\n{}\n.PP\nFile names may be of any bytes, and\n.B \\-\nis standard input. Options stand anywhere;\n\
         .B \\-\\-\nends them.\n.SH COMMANDS\n",
        env!("CARGO_PKG_VERSION"),
        text(&about),
    );
    for command in command.get_subcommands_mut().filter(|command| command.get_name() != "help") {
        page += &section(command);
    }
    page + ".SH EXIT STATUS\n.TP\n.B 0\nsuccess\n.TP\n.B 1\nthe engine refused what was handed in\n.TP\n.B 2\n\
            an error, such as a file that cannot be read\n\
            .SH ENVIRONMENT\n.TP\n.B NO_COLOR\nif it is set and not empty, no colour is used on a terminal\n\
            .SH SEE ALSO\ndocs/COMMAND.md and docs/FORMAT.md of the project, and\n.BR \"barleychime refusals\" .\n"
}

/// A command with its arguments and what its help says of them.
fn section(command: &mut Command) -> String {
    let usage = command.render_usage().to_string();
    let usage = usage.trim_start_matches("Usage:").trim();
    let mut section = format!(".SS {}\n{}\n", text(usage), text(&plain(command.get_about())));
    for argument in command.get_arguments().filter(|argument| argument.get_id() != "help") {
        section += &format!(".TP\n.B {}\n{}\n", text(&written(argument)), text(&plain(argument.get_help())));
    }
    let more = plain(command.get_after_help());
    match more.is_empty() {
        true => section,
        // Help is set in lines, and some of it in columns.
        false => section + &format!(".PP\n.nf\n{}\n.fi\n", text(&more)),
    }
}

/// An argument as it is written: `--after LIST`, `LIST...`.
fn written(argument: &Arg) -> String {
    let value = argument
        .get_value_names()
        .map_or(String::new(), |names| names.iter().map(|name| name.to_string()).collect::<Vec<_>>().join(" "));
    let takes_value = argument.get_action().takes_values();
    match (argument.get_long(), argument.is_positional(), takes_value) {
        (Some(long), _, true) => format!("--{long} {value}"),
        (Some(long), _, false) => format!("--{long}"),
        _ if matches!(argument.get_action(), clap::ArgAction::Append) => format!("{value}..."),
        _ => value,
    }
}

fn plain<Text: ToString>(text: Option<Text>) -> String {
    text.map_or(String::new(), |text| text.to_string())
}

/// A text that no line of which is taken for a request.
fn text(text: &str) -> String {
    let escaped = text.replace('\\', "\\e").replace('-', "\\-").replace('`', "\\(ga").replace('\'', "\\(aq");
    let guarded = |line: &str| if line.starts_with('.') { format!("\\&{line}") } else { line.to_owned() };
    escaped.lines().map(guarded).collect::<Vec<_>>().join("\n")
}
