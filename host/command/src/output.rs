//! Standard output for answers, standard error for remarks.

use crate::closed;
use crate::error::Error;
use crate::input::FileName;
use crate::Outcome;
use barleychime::refusal::Refusal;
use serde::Serialize;
use std::ffi::OsString;
use std::fmt::Display;
use std::fs;
use std::io::{self, IsTerminal, Write};
use std::path::Path;

/// Standard output.
pub struct Output(io::StdoutLock<'static>);

impl Output {
    pub fn new() -> Self {
        Output(io::stdout().lock())
    }

    /// Prints at once, so that an answer is there before a remark on it.
    pub fn print(&mut self, answer: impl AsRef<[u8]>) -> Result<(), Error> {
        if closed::standard_output() {
            return Err(Error::Output(io::Error::other("it is closed")));
        }
        self.0.write_all(answer.as_ref()).and_then(|()| self.0.flush()).map_err(Error::Output)
    }

    /// Prints an answer for programs: one value, and the end of a line.
    pub fn print_json(&mut self, answer: &impl Serialize) -> Result<(), Error> {
        let mut text = serde_json::to_string(answer).map_err(|error| Error::Output(error.into()))?;
        text.push('\n');
        self.print(text)
    }

    /// Prints an answer on a line, and after it the name of what it is about, byte for byte, if that is to be told.
    pub fn print_row(&mut self, answer: impl Display, name: Option<&FileName>) -> Result<(), Error> {
        let mut row = answer.to_string().into_bytes();
        if let Some(name) = name {
            row.push(b' ');
            row.extend_from_slice(name.bytes());
        }
        row.push(b'\n');
        self.print(row)
    }
}

/// How an answer is printed: for people, or for programs.
#[derive(Clone, Copy, Default, clap::Args)]
pub struct Format {
    /// Print one JSON object
    #[arg(long)]
    pub json: bool,
    /// Print rows with tabs between the columns
    #[arg(long, conflicts_with = "json")]
    pub tsv: bool,
}

/// A text on lines of at most 80 columns, all but the first of which are indented by so many.
pub fn wrapped(text: &str, indent: usize) -> String {
    let mut lines = String::new();
    let mut column = indent;
    for word in text.split_whitespace() {
        let length = word.chars().count();
        if column > indent && column + 1 + length > 80 {
            lines += "\n";
            lines += &" ".repeat(indent);
            column = indent;
        } else if column > indent {
            lines += " ";
            column += 1;
        }
        lines += word;
        column += length;
    }
    lines
}

/// A remark. There is nobody to tell if it cannot be written.
pub fn say(remark: &str) {
    let (bold, plain) = if coloured(&io::stderr()) { ("\x1b[1m", "\x1b[0m") } else { ("", "") };
    let _ = writeln!(io::stderr(), "{bold}barleychime:{plain} {remark}");
}

/// Whether what is written there may have colour: on a terminal, unless NO_COLOR is set (no-color.org) or it can show none.
pub fn coloured(stream: &impl IsTerminal) -> bool {
    let unset = std::env::var_os("NO_COLOR").is_none_or(|value| value.is_empty());
    unset && std::env::var_os("TERM").is_some_and(|terminal| terminal != "dumb") && stream.is_terminal()
}

/// Whether remarks go to a terminal, where somebody waits.
pub fn watched() -> bool {
    io::stderr().is_terminal()
}

/// A refusal in words, of a file or of what has another name.
pub fn say_why(what: impl Display, refusal: Refusal) {
    say(&format!("{what}: {refusal}"));
}

/// A galley that is refused, or has no pagination. Among rows with tabs there is none for it.
pub fn refuse_galley(
    name: &FileName,
    bytes: &[u8],
    refusal: Refusal,
    format: Format,
    output: &mut Output,
) -> Result<Outcome, Error> {
    if !format.tsv {
        output.print_row(refusal.code(), None)?;
    }
    say_why(name, refusal);
    hint_at_pack(name, bytes, refusal);
    Ok(Outcome::Refused)
}

/// A text handed in where a galley is wanted is an easy mistake.
pub fn hint_at_pack(name: &FileName, bytes: &[u8], refusal: Refusal) {
    let is_text = |text: &str| !text.is_empty() && text.chars().all(|c| c.is_whitespace() || !c.is_control());
    if refusal.kind.is_of_galley() && std::str::from_utf8(bytes).is_ok_and(is_text) {
        say(&format!("{name}: this is a text; `barleychime pack` makes a galley of one"));
    }
}

/// Writes a file whole or not at all: under a name of its own first, then in place of what was there.
pub fn write_whole(path: &Path, contents: &[u8]) -> Result<(), Error> {
    let mut own = OsString::from(".");
    own.push(path.file_name().unwrap_or_default());
    own.push(format!(".{}.part", std::process::id()));
    let part = path.with_file_name(own);
    let written = fs::write(&part, contents).and_then(|()| fs::rename(&part, path));
    written.map_err(|error| {
        // It may not be there.
        let _ = fs::remove_file(&part);
        Error::Write { name: path.to_owned().into_os_string().into(), error }
    })
}

#[cfg(test)]
mod tests {
    use super::wrapped;

    #[test]
    fn lines_have_80_columns_at_most() {
        let text = "a word and ".repeat(30);
        let lines: Vec<String> = wrapped(&text, 6).lines().map(str::to_owned).collect();
        assert!(lines.len() > 3);
        assert!(lines[1..].iter().all(|line| line.starts_with("      a") || line.starts_with("      w")));
        assert!(lines.iter().all(|line| line.len() <= 80), "{lines:?}");
        assert_eq!(lines.join(" ").split_whitespace().collect::<Vec<_>>(), text.split_whitespace().collect::<Vec<_>>());
    }

    #[test]
    fn a_word_that_is_too_long_has_a_line_of_its_own() {
        let long = "x".repeat(90);
        assert_eq!(wrapped(&format!("a {long} b"), 2), format!("a\n  {long}\n  b"));
    }
}
