//! The commands: for each its arguments, and what it does with them.

pub mod book;
pub mod completions;
pub mod desk;
pub mod explain;
pub mod fold;
pub mod forecast;
pub mod make;
pub mod man;
pub mod mark;
pub mod pack;
pub mod refusals;
pub mod report;
pub mod series;
pub mod show;
pub mod tex;
pub mod unpack;

use crate::error::Error;
use crate::marked::{Answer, Marked};
use crate::output::say;
use crate::Outcome;

/// Whether any of several files or calls was refused or could not be read.
#[derive(Default)]
pub struct Outcomes {
    pub refused: bool,
    pub failed: bool,
}

impl Outcomes {
    /// What was read; if nothing was, that is said.
    pub fn read<Contents>(&mut self, read: Result<Contents, Error>) -> Option<Contents> {
        read.map_err(|error| self.fail(&error)).ok()
    }

    /// What became of a list.
    pub fn count(&mut self, marked: &Marked) {
        match marked.answer {
            Answer::Accepted(_) => {}
            Answer::Refused(_) => self.refused = true,
            Answer::Unreadable(_) => self.failed = true,
        }
    }

    /// That something could not be read.
    pub fn fail(&mut self, error: &Error) {
        say(&error.to_string());
        self.failed = true;
    }

    pub fn whole(&self) -> Outcome {
        match (self.failed, self.refused) {
            (true, _) => Outcome::Failed,
            (false, true) => Outcome::Refused,
            (false, false) => Outcome::Success,
        }
    }
}
