//! What is asked at the desk, a line each: `ask PAGE I J`, or `ask PAGE I J D` where the galley has tables, `commit`, `list`,
//! `ends PAGE`, `write FILE`, `save NAME`, `back NAME`, `drop NAME`, `layouts`, `undo`, `help`, `quit`.

use barleychime::field::{numbers, shown, FieldError};
use std::fmt;

#[derive(Clone, Debug, PartialEq, Eq)]
pub enum Call {
    /// Another end of a page: lines, figures and tables placed so far.
    Ask {
        page: u32,
        end: [u32; 3],
    },
    Commit,
    /// Every end of a page that would be accepted.
    Ends {
        page: u32,
    },
    List,
    /// The list in force to a file of this name.
    Write(String),
    Save(String),
    Back(String),
    Drop(String),
    Layouts,
    Undo,
    Help,
    Quit,
}

/// Why a line is no call.
#[derive(Clone, Debug, PartialEq, Eq)]
pub enum CallError {
    /// It is not text.
    NotText,
    /// It opens with no call: with what.
    Unknown(String),
    /// Something stands after a call that is one by itself.
    Surplus { call: String, word: String },
    /// A field is no number.
    Field(FieldError),
    /// There are too few or too many numbers: the call as it is written, how many are wanted, and how many there are.
    Count { written: &'static str, wanted: &'static str, found: usize },
    /// A file to write to is missing.
    NoFile,
    /// A name has characters that nobody can see.
    Unseen(String),
}

impl fmt::Display for CallError {
    fn fmt(&self, out: &mut fmt::Formatter) -> fmt::Result {
        match self {
            CallError::NotText => write!(out, "not text"),
            CallError::Unknown(word) => write!(out, "{} is no call; `help` names them", shown(word)),
            CallError::Surplus { call, word } => {
                write!(out, "{} stands after `{call}`, which is a call by itself", shown(word))
            }
            CallError::Field(error) => error.fmt(out),
            CallError::Count { written, wanted, found } => write!(out, "{wanted} wanted {written}, not {found}"),
            CallError::NoFile => write!(out, "a file is wanted (write FILE)"),
            CallError::Unseen(name) => {
                write!(out, "{} has characters that nobody can see, which no name has here", shown(name))
            }
        }
    }
}

impl std::error::Error for CallError {}

/// The call on a line, for a galley with so many words a page; none on an empty line and on a comment, which opens with `#`.
pub fn parse(line: &str, page_words: usize) -> Result<Option<Call>, CallError> {
    let fields: Vec<&str> = line.split_whitespace().collect();
    let Some((&name, rest)) = fields.split_first().filter(|(name, _)| !name.starts_with('#')) else {
        return Ok(None);
    };
    let call = match name {
        "ask" => return ask(rest, page_words).map(Some),
        "commit" => Call::Commit,
        "ends" => return ends(rest).map(Some),
        "write" => return written(line),
        "undo" => Call::Undo,
        "list" => Call::List,
        "save" => return named(line, Call::Save),
        "back" => return named(line, Call::Back),
        "drop" => return named(line, Call::Drop),
        "layouts" => Call::Layouts,
        "help" => Call::Help,
        "quit" => Call::Quit,
        _ => return Err(CallError::Unknown(name.into())),
    };
    match rest.first() {
        None => Ok(Some(call)),
        Some(&word) => Err(CallError::Surplus { call: name.into(), word: word.into() }),
    }
}

/// The call that writes the list, to a file that has a name.
fn written(line: &str) -> Result<Option<Call>, CallError> {
    match named(line, Call::Write)? {
        Some(Call::Write(name)) if name.is_empty() => Err(CallError::NoFile),
        call => Ok(call),
    }
}

fn ends(fields: &[&str]) -> Result<Call, CallError> {
    match numbers(fields).map_err(CallError::Field)?.as_slice() {
        &[page] => Ok(Call::Ends { page }),
        numbers => Err(CallError::Count { written: "(ends PAGE)", wanted: "one number is", found: numbers.len() }),
    }
}

/// A call with a name, which is the rest of the line without spaces around it; of which length it must be the engine says.
fn named(line: &str, call: impl Fn(String) -> Call) -> Result<Option<Call>, CallError> {
    let name = line.trim().split_once(char::is_whitespace).map_or("", |(_, name)| name.trim());
    match name.chars().any(char::is_control) {
        true => Err(CallError::Unseen(name.into())),
        false => Ok(Some(call(name.into()))),
    }
}

fn ask(fields: &[&str], page_words: usize) -> Result<Call, CallError> {
    let numbers = numbers(fields).map_err(CallError::Field)?;
    let found = numbers.len();
    match (page_words, numbers.as_slice()) {
        (2, &[page, i, j]) => Ok(Call::Ask { page, end: [i, j, 0] }),
        (3, &[page, i, j, d]) => Ok(Call::Ask { page, end: [i, j, d] }),
        (2, _) => Err(CallError::Count { written: "(ask PAGE I J)", wanted: "three numbers are", found }),
        _ => {
            let written = "(ask PAGE I J D), since the galley has tables";
            Err(CallError::Count { written, wanted: "four numbers are", found })
        }
    }
}
