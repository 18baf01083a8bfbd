//! What can keep the command from its work. A refusal is none: it is an answer.

use crate::commands::tex::Failure;
use crate::input::FileName;
use barleychime::engine::MakeError;
use barleychime::list::ListError;
use barleychime::marks::MarksError;
use barleychime::refusal::Refusal;
use barleychime::text::TextError;
use std::fmt;
use std::io;

#[derive(Debug)]
pub enum Error {
    /// The command was called wrongly: what is wrong.
    Usage(String),
    /// A file or standard input cannot be read.
    Read { name: FileName, error: io::Error },
    /// A file cannot be written.
    Write { name: FileName, error: io::Error },
    /// A galley needs more memory than a series may take.
    Bounded { name: FileName, bytes: u64, memory: u64 },
    /// A file is longer than anything of its kind.
    TooLong { name: FileName },
    /// A file is a galley where a text is wanted.
    Galley { name: FileName },
    /// A line of a file is not text.
    NotText { name: FileName, line: usize },
    /// A text is no galley.
    Text { name: FileName, error: TextError },
    /// A text is no list.
    List { name: FileName, error: ListError },
    /// A text is no marks.
    Marks { name: FileName, error: MarksError },
    /// A galley cannot be made, though it is not refused.
    Make { name: FileName, error: MakeError },
    /// The engine reads a galley that this command cannot.
    NotDecoded { name: FileName },
    /// Standard input, as the calls of a desk, cannot be read.
    Calls(io::Error),
    /// A call at the desk is too long: its line.
    LongCall { line: usize },
    /// The engine refuses what it has answered before.
    Unlike(Refusal),
    /// A document cannot be paged.
    Tex(Failure),
    /// Standard output cannot be written.
    Output(io::Error),
}

impl Error {
    /// Whether nobody reads the output any more, which needs no word.
    pub fn is_closed_pipe(&self) -> bool {
        matches!(self, Error::Output(error) if error.kind() == io::ErrorKind::BrokenPipe)
    }
}

/// A word of a call that is no value of its option: why.
#[derive(Clone, Debug, PartialEq, Eq)]
pub struct WordError(pub String);

impl fmt::Display for WordError {
    fn fmt(&self, out: &mut fmt::Formatter) -> fmt::Result {
        self.0.fmt(out)
    }
}

impl std::error::Error for WordError {}

impl fmt::Display for Error {
    fn fmt(&self, out: &mut fmt::Formatter) -> fmt::Result {
        match self {
            Error::Usage(what) => write!(out, "{what}"),
            Error::Tex(failure) => write!(out, "{failure}"),
            Error::Read { name, error } => write!(out, "{name}: {error}"),
            Error::Write { name, error } => write!(out, "{name} cannot be written: {error}"),
            Error::Bounded { name, bytes, memory } => {
                let [needed, memory] = [*bytes, *memory].map(|bytes| bytes.div_ceil(1_000_000));
                write!(out, "{name}: making needs {needed} MB of memory, and --memory allows {memory}")
            }
            Error::TooLong { name } => write!(out, "{name}: too long for a text of a galley, of a list or of marks"),
            Error::Galley { name } => write!(out, "{name}: line 1: a galley file stands where a text is wanted"),
            Error::NotText { name, line } => write!(out, "{name}: line {line}: not text in UTF-8"),
            Error::Text { name, error } => write!(out, "{name}: {error}"),
            Error::List { name, error } => write!(out, "{name}: {error}"),
            Error::Marks { name, error } => write!(out, "{name}: {error}"),
            Error::Make { name, error } => write!(out, "{name}: {error}"),
            Error::NotDecoded { name } => write!(out, "{name}: the engine reads it, this command cannot"),
            Error::Calls(error) => write!(out, "standard input: {error}"),
            Error::LongCall { line } => write!(out, "line {line}: too long for a call"),
            Error::Unlike(refusal) => write!(out, "the engine accepted this before, and now refuses it: {refusal}"),
            Error::Output(error) => write!(out, "standard output: {error}"),
        }
    }
}

impl std::error::Error for Error {
    fn source(&self) -> Option<&(dyn std::error::Error + 'static)> {
        match self {
            Error::Read { error, .. } | Error::Write { error, .. } | Error::Calls(error) | Error::Output(error) => {
                Some(error)
            }
            Error::Tex(failure) => Some(failure),
            Error::Text { error, .. } => Some(error),
            Error::List { error, .. } => Some(error),
            Error::Marks { error, .. } => Some(error),
            Error::Make { error, .. } => Some(error),
            Error::Unlike(refusal) => Some(refusal),
            _ => None,
        }
    }
}
