//! Answers for programs: of each command one object, whose keys stay. docs/schemas has a JSON Schema for each.

use crate::error::Error;
use crate::input::FileName;
use crate::Outcome;
use barleychime::engine::{self, BookMeasure};
use barleychime::list::UnlikeHead;
use barleychime::refusal;
use barleychime::why;
use serde::{Serialize, Serializer};

/// The answer of a command: which it was, how it ended, and what else it tells.
#[derive(Serialize)]
pub struct Answer<Told: Serialize> {
    pub command: &'static str,
    pub outcome: Outcome,
    #[serde(flatten)]
    pub told: Told,
}

/// What kept a command from its work.
#[derive(Serialize)]
pub struct Failure {
    pub error: String,
}

impl From<&Error> for Failure {
    fn from(error: &Error) -> Self {
        Failure { error: error.to_string() }
    }
}

/// A name as JSON can have it: bytes that are no text are shown as U+FFFD.
impl Serialize for FileName {
    fn serialize<To: Serializer>(&self, to: To) -> Result<To::Ok, To::Error> {
        to.serialize_str(&String::from_utf8_lossy(self.bytes()))
    }
}

/// What a list or a book comes to.
#[derive(Clone, Copy, Serialize)]
pub struct Measure {
    pub pages: u64,
    pub x: u64,
    pub y: u64,
    pub turns: u64,
    pub white: u64,
}

impl From<engine::Measure> for Measure {
    fn from(measure: engine::Measure) -> Self {
        let engine::Measure { pages, x, y, turns, white } = measure;
        Measure { pages: pages.into(), x: x.into(), y: y.into(), turns: turns.into(), white: white.into() }
    }
}

impl From<BookMeasure> for Measure {
    fn from(measure: BookMeasure) -> Self {
        let BookMeasure { pages, x, y, turns, white } = measure;
        Measure { pages, x, y, turns, white }
    }
}

/// A refusal with its words.
#[derive(Clone, Serialize)]
pub struct Refusal {
    pub number: u32,
    pub name: &'static str,
    pub place: u32,
    pub sentence: String,
    pub mender: &'static str,
}

impl From<refusal::Refusal> for Refusal {
    fn from(refusal: refusal::Refusal) -> Self {
        let refusal::Refusal { kind, place } = refusal;
        let (number, name, mender) = (kind.number(), kind.name(), kind.mender());
        Refusal { number, name, place, sentence: refusal.sentence(), mender }
    }
}

/// A page of a list: what is placed when it ends.
#[derive(Serialize)]
pub struct Page {
    pub page: usize,
    pub lines: u32,
    pub figures: u32,
    pub tables: u32,
}

/// The pages of a list with so many words a page.
pub fn pages(list: &[u32], words: usize) -> Vec<Page> {
    let count = |end: &[u32], at: usize| end.get(at).copied().unwrap_or(0);
    let page = |(before, end): (usize, &[u32])| Page {
        page: before + 1,
        lines: count(end, 0),
        figures: count(end, 1),
        tables: count(end, 2),
    };
    list.chunks_exact(words).enumerate().map(page).collect()
}

/// A head line that is not what the marking counts.
#[derive(Clone, Serialize)]
pub struct Head {
    pub line: usize,
    pub name: &'static str,
    pub said: u32,
    pub counted: u32,
}

impl From<&UnlikeHead> for Head {
    fn from(unlike: &UnlikeHead) -> Self {
        Head { line: unlike.line, name: unlike.name, said: unlike.said, counted: unlike.counted }
    }
}

/// A page end with which turns are lost for good.
#[derive(Serialize)]
pub struct Loss {
    pub page: usize,
    pub line: usize,
    pub turns: u32,
    pub floats: Vec<String>,
    pub leaves: usize,
    pub words: String,
}

impl From<why::Loss> for Loss {
    fn from(loss: why::Loss) -> Self {
        let words = loss.in_words();
        let why::Loss { page, line, turns, floats, leaves } = loss;
        Loss { page, line, turns, floats, leaves, words }
    }
}

#[cfg(test)]
mod tests {
    use super::*;
    use std::ffi::OsString;

    #[test]
    fn pages_have_tables_where_there_are_none() {
        let told = serde_json::to_string(&pages(&[2, 1, 3, 1], 2)).expect("JSON");
        let page = |page: u32, lines: u32| format!("{{\"page\":{page},\"lines\":{lines},\"figures\":1,\"tables\":0}}");
        assert_eq!(told, format!("[{},{}]", page(1, 2), page(2, 3)));
        assert_eq!(pages(&[2, 1, 5], 3)[0].tables, 5);
    }

    #[cfg(unix)]
    #[test]
    fn a_name_that_is_no_text_is_shown() {
        use std::os::unix::ffi::OsStringExt;
        let name = FileName::from(OsString::from_vec(b"a\xff\"b".to_vec()));
        assert_eq!(serde_json::to_string(&name).expect("JSON"), "\"a\u{fffd}\\\"b\"");
    }
}
