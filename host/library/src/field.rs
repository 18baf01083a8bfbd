//! Fields of a text: whole numbers, and how an error quotes what is none.

use std::fmt;

/// A field that is no whole number of 32 bits.
#[derive(Clone, Debug, PartialEq, Eq)]
pub struct FieldError {
    /// Which field of its line, from 1.
    pub field: usize,
    /// What stands there.
    pub word: String,
}

impl fmt::Display for FieldError {
    fn fmt(&self, out: &mut fmt::Formatter) -> fmt::Result {
        write!(out, "field {}: {}", self.field, no_number(&self.word))
    }
}

impl std::error::Error for FieldError {}

/// Fields as numbers; an error names the first that is none.
pub fn numbers(fields: &[&str]) -> Result<Vec<u32>, FieldError> {
    let number = |(at, word): (usize, &&str)| {
        whole_number(word).ok_or_else(|| FieldError { field: at + 1, word: word.to_string() })
    };
    fields.iter().enumerate().map(number).collect()
}

/// Digits alone: no sign, no point.
///
/// ```
/// use barleychime::field::whole_number;
///
/// assert_eq!(whole_number("0041"), Some(41));
/// assert_eq!(whole_number("4294967295"), Some(u32::MAX));
/// assert_eq!(whole_number("4294967296"), None);
/// assert_eq!(whole_number("+1"), None);
/// ```
pub fn whole_number(word: &str) -> Option<u32> {
    word.bytes().all(|byte| byte.is_ascii_digit()).then(|| word.parse().ok()).flatten()
}

/// Why a word is no whole number, with the greatest where it is too great.
pub fn no_number(word: &str) -> String {
    match !word.is_empty() && word.bytes().all(|byte| byte.is_ascii_digit()) {
        true => format!("{} is no whole number of 32 bits; the greatest is {}", shown(word), u32::MAX),
        false => format!("{} is no whole number of 32 bits", shown(word)),
    }
}

/// A word as an error quotes it: one line, not too long, nothing that a terminal would obey.
pub fn shown(word: &str) -> String {
    let quoted: String = word.chars().take(24).map(|c| if c.is_control() { '?' } else { c }).collect();
    if word.chars().count() > 24 {
        format!("`{quoted}...`")
    } else {
        format!("`{quoted}`")
    }
}
