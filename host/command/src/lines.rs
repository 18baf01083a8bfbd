//! The lines that hold the calls at a desk: typed at a terminal, with editing and history, or sent by a script.

use crate::call::CallError;
use crate::error::Error;
use rustyline::config::OutputStreamType;
use rustyline::error::ReadlineError;
use rustyline::{Config, Editor};
use std::io::{self, BufRead, IsTerminal, Read};

/// More than any call that can be of use.
const LONGEST_LINE: u64 = 4_096;

const PROMPT: &str = "desk> ";

/// Where the lines come from.
pub enum Lines {
    /// A person, who sees a prompt on standard error.
    Typed(Box<Editor<()>>),
    /// A script; the line that was read last, counted from 1.
    Sent(usize),
}

impl Lines {
    /// From standard input.
    pub fn new() -> Self {
        if !(io::stdin().is_terminal() && io::stderr().is_terminal()) {
            return Lines::Sent(0);
        }
        let config = Config::builder().output_stream(OutputStreamType::Stderr).auto_add_history(true).build();
        Lines::Typed(Box::new(Editor::with_config(config)))
    }

    /// Whether somebody types them.
    pub fn are_typed(&self) -> bool {
        matches!(self, Lines::Typed(_))
    }

    /// What a remark on the line that was read last begins with; who types it sees which one.
    pub fn place(&self) -> String {
        match self {
            Lines::Typed(_) => String::new(),
            Lines::Sent(line) => format!("line {line}: "),
        }
    }

    /// The next line, or why it cannot be read as one; none at the end.
    pub fn next(&mut self) -> Result<Option<Result<String, CallError>>, Error> {
        match self {
            Lines::Typed(editor) => match editor.readline(PROMPT) {
                Ok(line) => Ok(Some(Ok(line))),
                // A line that is broken off is none.
                Err(ReadlineError::Interrupted) => Ok(Some(Ok(String::new()))),
                Err(ReadlineError::Eof) => Ok(None),
                Err(ReadlineError::Utf8Error) => Ok(Some(Err(CallError::NotText))),
                Err(ReadlineError::Io(error)) => Err(Error::Calls(error)),
                Err(error) => Err(Error::Calls(io::Error::other(error))),
            },
            Lines::Sent(number) => {
                let mut line = Vec::new();
                let read = io::stdin().lock().take(LONGEST_LINE + 1).read_until(b'\n', &mut line);
                *number += 1;
                match read.map_err(Error::Calls)? {
                    0 => Ok(None),
                    bytes if bytes as u64 > LONGEST_LINE => Err(Error::LongCall { line: *number }),
                    _ => Ok(Some(String::from_utf8(line).map_err(|_| CallError::NotText))),
                }
            }
        }
    }
}
