//! A list that was handed in, and what became of it: a row of its own, whatever that is.

use crate::error::Error;
use crate::input::FileName;
use crate::json;
use crate::output::{say, Output};
use crate::rows;
use barleychime::engine::{self, MakeError, Measure};
use barleychime::explanation;
use barleychime::galley::Galley;
use barleychime::list::{self, Extent, UnlikeHead};
use barleychime::refusal::Refusal;
use barleychime::why::{self, Finder, Loss};
use serde::Serialize;

/// A list, and what it comes to, what it breaks, or why it cannot be read.
pub struct Marked<'a> {
    pub name: &'a FileName,
    pub answer: Answer,
    /// The words of the list, if it can be read.
    pub words: Vec<u32>,
    /// Where its head line, if it has one, is unlike the marking.
    pub unlike: Option<UnlikeHead>,
    /// The numbers by which it breaks the rule that the marking names.
    numbers: String,
    /// Where its turns are lost for good, if that was asked and it is accepted.
    pub losses: Option<Vec<Loss>>,
}

/// What became of a list.
pub enum Answer {
    Accepted(Measure),
    Refused(Refusal),
    Unreadable(Error),
}

impl<'a> Marked<'a> {
    /// Marks a list for a galley.
    pub fn of(name: &'a FileName, bytes: &[u8], galley: &Galley) -> Self {
        let marked =
            |answer| Marked { name, answer, words: vec![], unlike: None, numbers: String::new(), losses: None };
        let list = match name.list(galley.page_words(), Extent::Whole) {
            Ok(list) => list,
            Err(error) => return marked(Answer::Unreadable(error)),
        };
        match engine::mark(bytes, &list.words) {
            Ok(measure) => {
                let unlike = list.head.and_then(|head| head.unlike(measure));
                Marked { words: list.words, unlike, ..marked(Answer::Accepted(measure)) }
            }
            Err(refusal) => {
                let numbers = explanation::in_numbers(galley, &list.words);
                Marked { words: list.words, numbers, ..marked(Answer::Refused(refusal)) }
            }
        }
    }

    /// Finds where the turns of an accepted list are lost for good.
    pub fn find_losses(&mut self, finder: &mut Finder) -> Result<(), MakeError> {
        if let Answer::Accepted(measure) = self.answer {
            self.losses = Some(finder.losses(&self.words, measure)?);
        }
        Ok(())
    }

    /// `p X Y T W`, `R number place`, or `?`; where losses were found, they follow.
    pub fn line(&self) -> String {
        match &self.answer {
            Answer::Accepted(measure) => {
                let lost = self.losses.as_ref().map_or(String::new(), |losses| format!(" {}", why::column(losses)));
                list::measure_line(*measure) + &lost
            }
            Answer::Refused(refusal) => refusal.code(),
            Answer::Unreadable(_) => "?".into(),
        }
    }

    /// Says what people want to know besides the row.
    pub fn say(&self) {
        match &self.answer {
            Answer::Accepted(_) => {}
            Answer::Refused(refusal) => say(&format!("{}: {refusal} ({})", self.name, self.numbers)),
            Answer::Unreadable(error) => say(&error.to_string()),
        }
        if let Some(unlike) = &self.unlike {
            say(&format!("{}: {unlike}", self.name));
        }
        self.losses.iter().flatten().for_each(|loss| say(&format!("{}: {}", self.name, loss.in_words())));
    }

    fn status(&self) -> &'static str {
        match self.answer {
            Answer::Accepted(_) => "accepted",
            Answer::Refused(_) => "refused",
            Answer::Unreadable(_) => "unreadable",
        }
    }

    fn measure(&self) -> Option<Measure> {
        match self.answer {
            Answer::Accepted(measure) => Some(measure),
            _ => None,
        }
    }

    fn refusal(&self) -> Option<Refusal> {
        match self.answer {
            Answer::Refused(refusal) => Some(refusal),
            _ => None,
        }
    }

    /// Why the list is no paper, or how its head line is wrong.
    fn reason(&self) -> Option<String> {
        match &self.answer {
            Answer::Accepted(_) => self.unlike.as_ref().map(ToString::to_string),
            Answer::Refused(refusal) => Some(format!("{} ({})", refusal.sentence(), self.numbers)),
            Answer::Unreadable(error) => Some(error.to_string()),
        }
    }

    /// The row for programs.
    pub fn json(&self) -> Row<'a> {
        Row {
            list: self.name,
            status: self.status(),
            measure: self.measure().map(Into::into),
            refusal: self.refusal().map(Into::into),
            head: self.unlike.as_ref().map(Into::into),
            error: match &self.answer {
                Answer::Unreadable(error) => Some(error.to_string()),
                _ => None,
            },
            lost: self.losses.clone().map(|losses| losses.into_iter().map(Into::into).collect()),
        }
    }

    /// The row with tabs; with what is lost for good, if that is asked.
    pub fn print_tsv(&self, why: bool, output: &mut Output) -> Result<(), Error> {
        let (measure, refusal) = (self.measure(), self.refusal());
        let row: [&dyn rows::Column; COLUMNS.len()] = [
            self.name,
            &self.status(),
            &measure.map(|measure| measure.pages),
            &measure.map(|measure| measure.x),
            &measure.map(|measure| measure.y),
            &measure.map(|measure| measure.turns),
            &measure.map(|measure| measure.white),
            &refusal.map(|refusal| refusal.kind.number()),
            &refusal.map(|refusal| refusal.place),
            &self.reason(),
            &self.losses.as_deref().map(why::column),
        ];
        rows::row(output, &row[..columns(why).len()])
    }
}

const COLUMNS: [&str; 11] =
    ["list", "status", "pages", "x", "y", "turns", "white", "refusal", "place", "reason", "lost"];

/// The names of the columns with tabs; the last one is there if it is asked.
pub fn columns(why: bool) -> &'static [&'static str] {
    &COLUMNS[..COLUMNS.len() - usize::from(!why)]
}

/// What programs are told of a list.
#[derive(Serialize)]
pub struct Row<'a> {
    list: &'a FileName,
    status: &'static str,
    measure: Option<json::Measure>,
    refusal: Option<json::Refusal>,
    head: Option<json::Head>,
    error: Option<String>,
    /// With --why alone.
    #[serde(skip_serializing_if = "Option::is_none")]
    lost: Option<Vec<json::Loss>>,
}
