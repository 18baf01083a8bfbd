//! What keeps a document from being paged.

use barleychime::engine::MakeError;
use barleychime::refusal::Refusal;
use barleychime::text::TextError;
use std::path::PathBuf;
use std::{fmt, io};

#[derive(Debug)]
pub enum Failure {
    /// A name that no document has.
    NoDocument(PathBuf),
    /// The package cannot be put where TeX finds it.
    NoPackage(io::Error),
    /// A program of TeX cannot be run.
    NoProgram { program: &'static str, error: io::Error },
    /// TeX stops: what it shows of that.
    Stopped(String),
    /// There is no galley: the file that would have them.
    NoGalleys(PathBuf),
    /// The pages that were printed are not known: the file that would have them.
    NoPages(PathBuf),
    /// More pages are said to be printed than the PDF had.
    TooFewPages { last: usize, pages: usize },
    /// A galley of which pages were printed, by its first line then, and what stands in its place now.
    NotPrinted { last: usize, number: usize, printed: String, now: Option<String> },
    /// What the package wrote is no galley.
    Galley { number: usize, error: TextError },
    /// A chapter that the engine made is refused.
    Unlike { number: usize, refusal: Refusal },
    /// The printed pages of a galley cannot stay.
    Printed { number: usize, words: String, error: MakeError },
    /// The lists, or what `--show` takes, cannot be written.
    Lists { path: PathBuf, error: io::Error },
}

impl fmt::Display for Failure {
    fn fmt(&self, out: &mut fmt::Formatter) -> fmt::Result {
        match self {
            Failure::NoDocument(name) => write!(out, "{}: no document has this name", name.display()),
            Failure::NoPackage(error) => write!(out, "the package cannot be written for TeX: {error}"),
            Failure::NoProgram { program, error } => {
                write!(out, "{program}: {error}; is TeX installed? `packages/install latex` installs it")
            }
            Failure::Stopped(shown) => write!(out, "{shown}"),
            Failure::NoGalleys(path) => {
                let what = "not written; does the document say \\usepackage{barleychime}, in one column?";
                write!(out, "{}: {what}", path.display())
            }
            Failure::NoPages(path) => {
                write!(out, "{}: not there; --after needs it from the run whose pages were printed", path.display())
            }
            Failure::TooFewPages { last, pages } => write!(out, "--after {last}: the PDF had {pages} pages"),
            Failure::NotPrinted { last, number, printed, now } => {
                let now = match now {
                    Some(now) if now == printed => "it has changed".into(),
                    Some(now) => format!("{now:?} stands there now"),
                    None => "it is not there any more".into(),
                };
                let what = "its pages cannot stay; without --after all is made anew";
                write!(out, "--after {last}: galley {number} was printed, {printed:?}, and {now}: {what}")
            }
            Failure::Galley { number, error } => write!(out, "galley {number}: {error}"),
            Failure::Unlike { number, refusal } => write!(out, "galley {number}: {refusal}"),
            Failure::Printed { number, words, error } => {
                let what = "its printed pages cannot stay";
                write!(out, "galley {number}, {words:?}: {what}: {error}; without --after all is made anew")
            }
            Failure::Lists { path, error } => write!(out, "{}: {error}", path.display()),
        }
    }
}

impl std::error::Error for Failure {
    fn source(&self) -> Option<&(dyn std::error::Error + 'static)> {
        match self {
            Failure::NoPackage(error) | Failure::NoProgram { error, .. } | Failure::Lists { error, .. } => Some(error),
            Failure::Galley { error, .. } => Some(error),
            Failure::Unlike { refusal, .. } => Some(refusal),
            Failure::Printed { error, .. } => Some(error),
            _ => None,
        }
    }
}
