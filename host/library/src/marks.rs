//! Marks as text, a line `p X Y T E` for each paper, and the report on them in words and numbers.

use crate::engine::{Mark, Report};
use crate::field::{numbers, FieldError};
use crate::refusal::Refusal;
use std::collections::BTreeMap;
use std::fmt;

/// A mark and the line of the text that it stands on.
pub struct Entry {
    /// The line, from 1.
    pub line: usize,
    /// The mark.
    pub mark: Mark,
}

/// What is wrong with a text that is no marks, and where.
#[derive(Clone, Debug, PartialEq, Eq)]
pub struct MarksError {
    /// The line, from 1.
    pub line: usize,
    /// What is wrong with it.
    pub fault: MarksFault,
}

/// What is wrong with a line of marks.
#[derive(Clone, Debug, PartialEq, Eq)]
#[non_exhaustive]
pub enum MarksFault {
    /// It is a refusal, as `mark` prints one.
    Refused,
    /// A field is no number.
    Field(FieldError),
    /// It has more or fewer than five numbers: how many.
    Count(usize),
}

impl fmt::Display for MarksError {
    fn fmt(&self, out: &mut fmt::Formatter) -> fmt::Result {
        write!(out, "line {}: ", self.line)?;
        match &self.fault {
            MarksFault::Refused => {
                write!(out, "a refusal stands where a mark is wanted; a refused list is no paper, so leave it out")
            }
            MarksFault::Field(error) => error.fmt(out),
            MarksFault::Count(found) => write!(out, "a mark has five numbers (p X Y T E), not {found}"),
        }
    }
}

impl std::error::Error for MarksError {}

/// The marks of a text. An error names the line, and the field where there is one.
///
/// ```
/// use barleychime::marks;
///
/// assert_eq!(marks::parse("2 0 1 1 1 # a paper\n").unwrap()[0].mark.pages, 2);
/// assert_eq!(marks::parse("2 0 1 1\n").err().unwrap().to_string(), "line 1: a mark has five numbers (p X Y T E), not 4");
/// ```
pub fn parse(text: &str) -> Result<Vec<Entry>, MarksError> {
    let mut entries = Vec::new();
    for (before, line) in text.lines().enumerate() {
        let fields: Vec<&str> = line.split('#').next().unwrap_or("").split_whitespace().collect();
        if fields.is_empty() {
            continue;
        }
        let line = before + 1;
        let mark = mark_of(&fields).map_err(|fault| MarksError { line, fault })?;
        entries.push(Entry { line, mark });
    }
    Ok(entries)
}

fn mark_of(fields: &[&str]) -> Result<Mark, MarksFault> {
    if fields[0] == "R" {
        return Err(MarksFault::Refused);
    }
    match numbers(fields).map_err(MarksFault::Field)?.as_slice() {
        &[pages, x, y, turns, engine] => Ok(Mark { pages, x, y, turns, engine }),
        _ => Err(MarksFault::Count(fields.len())),
    }
}

/// A report in words and numbers, a line for each.
pub fn in_words(report: &Report) -> String {
    let Report { papers, pages, x, y, turns, least, greatest, excess, count } = report;
    let lines = [
        format!("papers: {papers}"),
        format!("sum of p (pages): {pages}"),
        format!("sum of X (turns to figures and tables): {x}"),
        format!("sum of Y (turns from first page to last): {y}"),
        format!("sum of T (weighted turns): {turns}"),
        format!("least T: {least}"),
        format!("greatest T: {greatest}"),
        format!("excess over the engine: {excess}"),
        format!("mean excess: {}", mean(*excess, *count)),
    ];
    lines.join("\n") + "\n"
}

/// The mean as a fraction and as a decimal of up to four places, rounded where it is longer.
fn mean(sum: u64, count: u64) -> String {
    const PLACES: u128 = 10_000;
    if count == 0 {
        return "none, since there are no papers".into();
    }
    let (scaled, divisor) = (u128::from(sum) * PLACES, u128::from(count));
    let nearest = (2 * scaled + divisor) / (2 * divisor);
    let decimal = format!("{}.{:04}", nearest / PLACES, nearest % PLACES);
    match scaled % divisor {
        0 => format!("{sum}/{count} = {}", decimal.trim_end_matches('0').trim_end_matches('.')),
        _ => format!("{sum}/{count}, about {decimal}"),
    }
}

/// How many lists were refused, and by which rules, and how many could not be read, if any.
pub fn no_papers(refused: &[Refusal], unreadable: usize) -> String {
    let mut by_rule = BTreeMap::new();
    for refusal in refused {
        *by_rule.entry(refusal.kind.number()).or_insert(0) += 1;
    }
    let rules: Vec<String> = by_rule.iter().map(|(rule, lists)| format!("{lists} by rule {rule}")).collect();
    let refused = match refused.len() {
        0 => "refused lists: 0\n".into(),
        lists => format!("refused lists: {lists}, which are no papers ({})\n", rules.join(", ")),
    };
    match unreadable {
        0 => refused,
        lists => refused + &format!("unreadable lists: {lists}, which are no papers\n"),
    }
}
