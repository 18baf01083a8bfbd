//! Galleys as text, one record a line: `GS 30 30 0 0 1 1 1`, `FO 38`, `TL 10 0 0 1`, `FK 20 0 0 1`, `FG 5 0 0 1`,
//! `TB 15 0 0 1`, `ED`; `#` opens a comment.

use crate::engine;
use crate::field::{no_number, shown, whole_number};
use crate::record::{kind_of, Kind, Record, KINDS};
use crate::refusal::{Refusal, RefusalKind};
use std::fmt;

/// A galley packed from text: its bytes, and for each record where it begins and the line that it comes from.
#[derive(Debug)]
pub struct Packed {
    /// The galley file.
    pub bytes: Vec<u8>,
    records: Vec<Origin>,
}

#[derive(Debug)]
struct Origin {
    offset: usize,
    line: usize,
    record: Record,
}

/// What is wrong with a text that is no galley, and where.
#[derive(Clone, Debug, PartialEq, Eq)]
pub struct TextError {
    /// The line, from 1.
    pub line: usize,
    /// What is wrong with it.
    pub fault: TextFault,
}

/// What is wrong with a line of a galley.
#[derive(Clone, Debug, PartialEq, Eq)]
#[non_exhaustive]
pub enum TextFault {
    /// It opens with no mark: with what.
    Mark(String),
    /// A field is missing.
    Missing {
        /// Which, from 0.
        field: usize,
        /// The kind of record.
        kind: &'static Kind,
    },
    /// A field is no number.
    Number {
        /// Which, from 0.
        field: usize,
        /// The kind of record.
        kind: &'static Kind,
        /// What stands there.
        word: String,
    },
    /// Something stands after the last field.
    Surplus {
        /// The kind of record.
        kind: &'static Kind,
        /// What stands there.
        word: String,
    },
}

impl fmt::Display for TextError {
    fn fmt(&self, out: &mut fmt::Formatter) -> fmt::Result {
        let named = |field: &usize, kind: &Kind| format!("field {} ({})", field + 1, kind.fields[*field]);
        write!(out, "line {}: ", self.line)?;
        match &self.fault {
            TextFault::Mark(word) => {
                write!(out, "mark: {} is none of {}", shown(word), KINDS.map(|kind| kind.mark).join(", "))
            }
            TextFault::Missing { field, kind } => {
                write!(out, "{}: missing; {} has {} fields", named(field, kind), kind.mark, kind.fields.len())
            }
            TextFault::Number { field, kind, word } => write!(out, "{}: {}", named(field, kind), no_number(word)),
            TextFault::Surplus { kind, word } => {
                write!(out, "{} stands after the last field of {}", shown(word), kind.mark)
            }
        }
    }
}

impl std::error::Error for TextError {}

/// Packs a text, record by record, without judging the records. An error names line and field.
///
/// ```
/// use barleychime::text;
///
/// let packed = text::pack("GS 30 30 0 0 1 1 1\nTL 10 0 0 1 # a line\nED\n")?;
/// assert!(packed.judge().is_ok());
/// assert_eq!(text::unpack(&packed.bytes).0, "GS 30 30 0 0 1 1 1\nTL 10 0 0 1\nED\n");
/// assert_eq!(text::pack("TL 10\n").unwrap_err().to_string(), "line 1: field 2 (least space): missing; TL has 4 fields");
/// # Ok::<(), text::TextError>(())
/// ```
pub fn pack(text: &str) -> Result<Packed, TextError> {
    let mut packed = Packed { bytes: Vec::new(), records: Vec::new() };
    for (before, line) in text.lines().enumerate() {
        let words: Vec<&str> = line.split('#').next().unwrap_or("").split_whitespace().collect();
        if words.is_empty() {
            continue;
        }
        let line = before + 1;
        let record = record_of(&words).map_err(|fault| TextError { line, fault })?;
        let offset = packed.bytes.len();
        record.put(&mut packed.bytes);
        packed.records.push(Origin { offset, line, record });
    }
    Ok(packed)
}

fn record_of(words: &[&str]) -> Result<Record, TextFault> {
    let kind = kind_of(words[0].as_bytes()).ok_or_else(|| TextFault::Mark(words[0].into()))?;
    let mut fields = Vec::new();
    for field in 0..kind.fields.len() {
        let word = words.get(field + 1).ok_or(TextFault::Missing { field, kind })?;
        let number = whole_number(word).ok_or_else(|| TextFault::Number { field, kind, word: word.to_string() })?;
        fields.push(number);
    }
    match words.get(1 + kind.fields.len()) {
        None => Ok(Record { kind, fields }),
        Some(word) => Err(TextFault::Surplus { kind, word: word.to_string() }),
    }
}

/// A galley from text that the engine refuses: the refusal, and where in the text it is.
#[derive(Clone, Debug, PartialEq, Eq)]
pub struct PackedRefusal {
    /// What the engine says of the bytes.
    pub refusal: Refusal,
    words: String,
}

impl fmt::Display for PackedRefusal {
    fn fmt(&self, out: &mut fmt::Formatter) -> fmt::Result {
        write!(out, "{} ({})", self.words, self.refusal.code())
    }
}

impl std::error::Error for PackedRefusal {}

impl Packed {
    /// Whether the engine reads these bytes; its refusal, in terms of the text, if it does not.
    pub fn judge(&self) -> Result<(), PackedRefusal> {
        engine::read(&self.bytes).map_err(|refusal| PackedRefusal { refusal, words: self.in_words(refusal) })
    }

    fn in_words(&self, refusal: Refusal) -> String {
        let sentence = refusal.sentence();
        let Some(at) = self.records.iter().position(|origin| origin.offset == refusal.place as usize) else {
            let last = self.records.last().map_or(0, |origin| origin.line);
            return format!("after line {last}: {sentence}");
        };
        let Origin { line, record, .. } = &self.records[at];
        format!("line {line}: {}{sentence}", field_at_fault(refusal.kind, record))
    }
}

/// `field ..., which is ...: ` for the refusals that lie in one field.
pub fn field_at_fault(kind: RefusalKind, record: &Record) -> String {
    let name = |at: usize| format!("field {} ({}): {}", at + 1, record.kind.fields[at], record.fields[at]);
    match (kind, record.out_of_range()) {
        (RefusalKind::BadField, Some((at, range))) => format!("{}, but it must be {range}: ", name(at)),
        (RefusalKind::NoSuchLine | RefusalKind::OutOfOrder, _) if record.fields.len() == 4 => format!("{}: ", name(3)),
        _ => String::new(),
    }
}

/// The records of a galley file as text, and where the last whole one ends.
pub fn unpack(galley: &[u8]) -> (String, usize) {
    let mut text = String::new();
    let mut rest = galley;
    while let Some((record, after)) = Record::take(rest) {
        text += record.kind.mark;
        for field in &record.fields {
            text += &format!(" {field}");
        }
        text += "\n";
        rest = after;
    }
    (text, galley.len() - rest.len())
}
